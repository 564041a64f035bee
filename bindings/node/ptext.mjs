// cut, paste, join, comm, uniq and tr for node, by the proved library as WebAssembly. ptext.d.ts describes its calls.
import fs from "node:fs";
import { Worker } from "node:worker_threads";
import { checkOptions, checkStatus, mapOf } from "./checks.mjs";
import { PIECE, Ptext, bytesOf, checkWords, isBytes, joined, readerOf } from "./module.mjs";

export { PtextError } from "./checks.mjs";

/** How many modules and threads that have ended their run are kept for the next one. */
const KEPT = 4;
/** After this many bytes of pieces, those that nobody has any more are collected. */
const COLLECTED = 2 ** 22;

let compiled = null, passed = 0;
const modules = [], threads = [];

/** The compiled module, which all threads share. */
function compile() {
    compiled ??= new WebAssembly.Module(fs.readFileSync(new URL("./ptext.wasm", import.meta.url)));
    return compiled;
}

// ---- inputs

/** Whether bytes can be had again. */
const canBeRepeated = (it) => isBytes(it) || it instanceof URL || it instanceof Blob || isCollection(it);

/** What listens to the errors of a Readable, once, however many commands get it. */
const unheard = () => {};

/** The inputs of a command: standard input, and the files by their names. */
class Inputs {
    constructor(stdin, files, kinds) {
        this.stdin = stdin;
        this.files = mapOf(files);
        this.kinds = kinds;
        this.taken = new Set();
        this.#check("stdin", stdin);
        for (const [name, it] of this.files) if (this.has(name)) this.#check(`files[${JSON.stringify(name)}]`, it);
    }

    #check(what, given) {
        if (!this.kinds.has(given)) throw new TypeError(`${what} is no input: ${this.kinds.said}`);
        // (A Readable may fail before it is read. Its reader gets the error, which must not end the process.)
        if (typeof given.pipe === "function") given.off?.("error", unheard).on("error", unheard);
    }

    has(name) {
        return (this.files.get(name) ?? null) !== null;
    }

    /** A file, or standard input if the name is null. What can be read only once is not given twice. */
    take(name) {
        const given = name === null ? this.stdin : this.files.get(name);
        if (!canBeRepeated(given)) {
            if (this.taken.has(given)) throw new Error(`${name ?? "stdin"} is read twice, and can be read only once`);
            this.taken.add(given);
        }
        return given;
    }
}

const isIterable = (it) => typeof it?.[Symbol.iterator] === "function";
const isAsync = (it) => typeof it?.[Symbol.asyncIterator] === "function";
/** Whether this can be iterated over again, as an Array or a Set: it is no iterator and no stream. */
const isCollection = (it) => isIterable(it) && !isAsync(it) && typeof it.next !== "function";
const SYNC = {
    has: (it) => isBytes(it) || it instanceof URL || isIterable(it),
    said: "a string, a buffer, an iterable of these, or the URL of a file (`run` takes nothing that is waited for)",
};
const ASYNC = {
    has: (it) => SYNC.has(it) || it instanceof Blob || isAsync(it),
    said: "a string, a buffer, an iterable of these (also an async one, as a stream), a Blob, or the URL of a file",
};

/** The pieces of an input that need not be waited for. */
function* piecesOf(given) {
    if (isBytes(given)) return yield given;
    if (!(given instanceof URL)) return yield* given;
    const file = fs.openSync(given), room = Buffer.allocUnsafeSlow(PIECE);
    try {
        for (let count; (count = fs.readSync(file, room)); ) yield room.subarray(0, count);
    } finally {
        fs.closeSync(file);
    }
}

async function* eachOf(given) {
    yield* given;
}

/** The pieces of a file, each of which is there until the next one. */
async function* readsOf(url) {
    const file = await fs.promises.open(url), room = Buffer.allocUnsafeSlow(PIECE);
    try {
        for (let read; (read = await file.read(room)).bytesRead; ) yield room.subarray(0, read.bytesRead);
    } finally {
        await file.close();
    }
}

/** The pieces of any input. Its `return` also ends a stream of which `next` waits for a piece. */
function awaitedPiecesOf(given) {
    if (given instanceof URL) return readsOf(given);
    if (given instanceof Blob) return awaitedPiecesOf(given.stream());
    if (isBytes(given)) return eachOf([given]);
    if (typeof given.getReader === "function") {
        const reader = given.getReader();
        return { next: () => reader.read(), return: () => reader.cancel().finally(() => reader.releaseLock()) };
    }
    const iterator = eachOf(given);
    if (typeof given.pipe !== "function") return iterator;
    // (It is a Readable.)
    return { next: () => iterator.next(), return: async () => given.destroy() };
}

/** Counts the bytes of a piece. V8 collects if there are new buffers of 32 MB: it gets one, whose pages are not there. */
function count(size) {
    passed += size;
    if (passed < COLLECTED) return;
    passed = 0;
    new ArrayBuffer(2 ** 25);
}

// ---- in this thread

export function names(words) {
    return withModule(undefined, (module) => module.names(words));
}

/** Calls a function with a module that is in no other call. */
function withModule(memory, call) {
    const module = (memory === undefined && modules.pop()) || new Ptext(compile(), memory);
    try {
        return call(module);
    } finally {
        module.release();
        if (memory === undefined && modules.length < KEPT) modules.push(module);
    }
}

export function run(words, options = {}) {
    checkOptions(options, ["stdin", "files", "memory", "write"]);
    const { stdin = "", files = {}, memory, write } = options;
    const inputs = new Inputs(stdin, files, SYNC), out = [], iterators = [];
    const open = (name) => {
        if (name !== null && !inputs.has(name)) return null;
        let reader = null;
        return (room) => {
            if (!reader) {
                iterators.push(piecesOf(inputs.take(name)));
                reader = readerOf(iterators.at(-1));
            }
            return reader(room);
        };
    };
    const take = write ?? ((piece) => out.push(piece.slice()));
    if (typeof take !== "function") throw new TypeError("write has to be a function, which gets pieces of the output");
    try {
        const did = withModule(memory, (module) => module.run(words, open, take));
        const whole = joined(out);
        checkStatus(did, inputs.files, whole);
        return write ? undefined : whole;
    } finally {
        for (const it of iterators) it.return();
    }
}

// ---- in a thread of its own, which waits for inputs and for whoever reads the output

/** A thread that runs one command at a time, step by step. Nothing runs in it between two steps. */
class Thread {
    constructor() {
        this.shared = new SharedArrayBuffer(8 + PIECE);
        [this.control, this.piece] = [new Int32Array(this.shared, 0, 2), new Uint8Array(this.shared, 8)];
        // (With little room for what is new, the buffers that a run leaves are collected soon.)
        const resourceLimits = { maxYoungGenerationSizeMb: 1 }, workerData = { module: compile(), shared: this.shared };
        // (Options of the process, as `--input-type`, are not for this script.)
        const how = { workerData, resourceLimits, execArgv: [] };
        this.worker = new Worker(new URL("./worker.mjs", import.meta.url), how);
        this.worker.unref();
        this.worker.on("message", (step) => this.good(step));
        this.worker.on("error", (error) => this.#died(error));
        this.worker.on("exit", () => this.#died(new Error("the thread of the command has ended")));
    }

    /** No further command gets this thread, and the one that it runs fails. */
    #died(error) {
        this.dead ??= error;
        const index = threads.indexOf(this);
        if (index >= 0) threads.splice(index, 1);
        this.bad?.(this.dead);
    }

    /** The next step: that of a command that begins, or, with a number, after that many bytes of the piece. */
    next(command) {
        if (this.dead) throw this.dead;
        if (typeof command !== "number") this.worker.postMessage(command);
        else {
            this.control[1] = command;
            Atomics.store(this.control, 0, 1);
            Atomics.notify(this.control, 0);
        }
        // (The thread keeps the process alive only while it is waited for.)
        this.worker.ref();
        const step = new Promise((good, bad) => Object.assign(this, { good, bad }));
        return step.finally(() => this.worker.unref());
    }
}

/** A command that runs in a thread. */
class Running {
    constructor(words, inputs, memory) {
        Object.assign(this, { words, inputs, memory, thread: null, isClosed: false });
        /** By the number of the stream: the pieces that are still to come, and the rest of the last one. */
        this.iterators = new Map();
        this.rests = new Map();
        this.answer = 0;
    }

    /** The next bytes of the output, which are there until the next call, or null at its end. */
    async next() {
        try {
            for (;;) {
                const step = await this.#step();
                if (step.ended) return this.#end(step);
                this.answer = 0;
                if (!step.reads) return this.thread.piece.subarray(0, step.size);
                this.answer = await this.#give(step.reads);
            }
        } catch (error) {
            this.close();
            throw error;
        }
    }

    #step() {
        if (this.thread) return this.thread.next(this.answer);
        this.thread = threads.pop() ?? new Thread();
        const known = [...this.inputs.files.keys()].filter((name) => this.inputs.has(name));
        return this.thread.next({ words: this.words, known, memory: this.memory });
    }

    /** Puts the next bytes of an input into the piece. Returns how many there are, 0 at the end. */
    async #give([number, name]) {
        if (!this.iterators.has(number)) this.iterators.set(number, awaitedPiecesOf(this.inputs.take(name)));
        let rest = this.rests.get(number);
        while (!rest?.length) {
            const { done, value } = await this.iterators.get(number).next();
            if (this.isClosed) throw new Error("the stream was closed");
            if (done) return 0;
            rest = bytesOf(value);
        }
        const part = rest.subarray(0, PIECE);
        this.thread.piece.set(part);
        this.rests.set(number, rest.subarray(part.length));
        count(part.length);
        return part.length;
    }

    #end({ error, ended, isSmall }) {
        if (error) throw error;
        if (isSmall && threads.length < KEPT) threads.push(this.thread);
        else this.thread.worker.terminate();
        this.thread = null;
        this.close();
        checkStatus(ended, this.inputs.files, new Uint8Array(0));
        return null;
    }

    /** Ends the command, if it has not ended, and closes the inputs that were begun. */
    close() {
        if (this.isClosed) return;
        this.isClosed = true;
        this.thread?.worker.terminate();
        for (const it of this.iterators.values()) it.return().catch(() => {});
    }
}

/** Ends the command of a stream that nobody has any more. (A command has no reference to its stream.) */
const dropped = new FinalizationRegistry((running) => running.close());

export function stream(words, options = {}) {
    checkOptions(options, ["stdin", "files", "memory"]);
    const { stdin = "", files = {}, memory } = options;
    checkWords(words);
    // (The thread gets the words at the first read. They may be changed until then.)
    const running = new Running([...words], new Inputs(stdin, files, ASYNC), memory);
    const pull = async (controller) => {
        const piece = await running.next();
        if (!piece) return controller.close();
        controller.enqueue(piece.slice());
        count(piece.length);
    };
    const made = new ReadableStream({ pull, cancel: () => running.close() }, { highWaterMark: 0 });
    dropped.register(made, running);
    return made;
}
