// Calls of the module ptext.wasm, which runs commands over streams. Its addresses have 64 bits, and so a number goes in
// and comes out as a BigInt.

/** The status of a run for which there was too little memory. The others are those of the program, 0 to 2. */
export const MEMORY = 4;

const ANSWER_SIZE = 40;
const PAGE_SIZE = 65536;
const HEADER_SIZE = 16;
/** A module with more memory than this is loaded anew for its next call, since its memory never shrinks. */
const KEPT_MEMORY = 2 ** 26;
/** The most memory that a call gets, in bytes: a command that needs more ends with status 4. */
const LIMIT = 2 ** 30;
/** The size of the pieces in which the output is handed out. */
export const PIECE = 2 ** 16;
/** The numbers of the streams of a run. The files that the words name come after them. */
const OUTPUT = 1, FIRST_FILE = 3;

class NoMemory extends Error {
    constructor() {
        super("out of memory");
    }
}

/**
 * The heap of a module. Of each block, the first 16 bytes hold its size, and the caller gets those after them. Small
 * blocks have 2^k bytes, and large ones a multiple of PAGE_SIZE.
 */
export class Heap {
    constructor(limit) {
        this.limit = limit;
        /** The request that is refused, counted from 0. Only tests set it. */
        this.refused = -1;
    }

    /** Begins at this address of a memory. All earlier blocks are gone. */
    begin(memory, address) {
        this.memory = memory;
        this.most = address + this.limit;
        this.end = Math.ceil(address / HEADER_SIZE) * HEADER_SIZE;
        this.requests = 0;
        /** The blocks that were given back: the small ones by their size, and the large ones. */
        this.small = new Map();
        this.large = [];
    }

    view() {
        return new DataView(this.memory.buffer);
    }

    bytes() {
        return new Uint8Array(this.memory.buffer);
    }

    sizeOf(block) {
        return this.view().getFloat64(block);
    }

    /** Returns a block with room for `size` bytes, or 0 if there is no memory for it. */
    take(size) {
        const whole = wholeSize(size), block = this.reuse(whole);
        if (block) return block + HEADER_SIZE;
        const made = this.extend(whole);
        if (made) this.view().setFloat64(made, whole);
        return made && made + HEADER_SIZE;
    }

    /** Returns a block of about this size that was given back, or 0. */
    reuse(whole) {
        if (whole <= PAGE_SIZE) return this.small.get(whole)?.pop() ?? 0;
        const sizes = this.large.map((it) => this.sizeOf(it)).map((it) => (it < whole ? Infinity : it));
        const least = Math.min(...sizes);
        return least <= 2 * whole ? this.large.splice(sizes.indexOf(least), 1)[0] : 0;
    }

    /** Returns the beginning of `size` bytes that no block has, or 0. */
    extend(size) {
        const end = this.end + size;
        if (end > this.most || !this.grow(end)) return 0;
        this.end = end;
        return end - size;
    }

    /** Lets the memory reach up to `end`, and returns whether it does. */
    grow(end) {
        const pages = Math.ceil((end - this.memory.buffer.byteLength) / PAGE_SIZE);
        if (pages <= 0) return true;
        for (const count of [BigInt(pages), pages]) {
            try {
                this.memory.grow(count);
                return true;
            } catch (error) {
                // (Node 20 takes a number of pages that is no BigInt.)
                if (!(error instanceof TypeError)) return false;
            }
        }
        return false;
    }

    /** Takes a block back. */
    give(address) {
        const block = address - HEADER_SIZE, whole = this.sizeOf(block);
        if (block + whole === this.end) this.end = block;
        else if (whole > PAGE_SIZE) this.large.push(block);
        else if (this.small.has(whole)) this.small.get(whole).push(block);
        else this.small.set(whole, [block]);
    }

    /** Returns a block with room for `size` bytes that begins with the first `kept` of an earlier one, or 0. */
    resize(address, kept, size) {
        const block = address - HEADER_SIZE, had = this.sizeOf(block), whole = wholeSize(size);
        if (whole <= had) return address;
        if (block + had === this.end) {
            // (The last block grows where it is.)
            if (!this.extend(whole - had)) return 0;
            this.view().setFloat64(block, whole);
            return address;
        }
        const other = this.take(size);
        if (!other) return 0;
        this.bytes().copyWithin(other, address, address + kept);
        this.give(address);
        return other;
    }

    /** The three functions that the module imports. The first two write whether there is memory, and where. */
    imports() {
        const answer = (at, request) => {
            const block = this.requests++ === this.refused ? 0 : request();
            const view = this.view();
            view.setUint8(Number(at), block ? 1 : 0);
            view.setBigUint64(Number(at) + 8, BigInt(block || HEADER_SIZE), true);
        };
        return {
            rattle_alloc: (at, size) => answer(at, () => this.take(Number(size))),
            rattle_realloc: (at, block, kept, size) =>
                answer(at, () => this.resize(Number(block), Number(kept), Number(size))),
            rattle_dealloc: (block) => this.give(Number(block)),
        };
    }
}

/** The tools over streams. */
export class Ptext {
    constructor(module, limit = LIMIT) {
        this.module = module;
        this.heap = new Heap(limit);
        this.exports = null;
        /** How the streams of the run are read and written, and those whose last read gave less than its room. */
        this.streams = null;
        this.short = new Set();
        /** The bytes of the last read or write of each stream. */
        this.views = [];
    }

    /** Loads a module from its bytes. It fails with a CompileError where the memories of the module are unknown. */
    static async load(bytes, limit) {
        return new Ptext(await WebAssembly.compile(bytes), limit);
    }

    /** Returns the names of the files that a command reads, in their order, and that of its output file, or null. */
    names(words) {
        return this.#guarded(null, () => {
            const given = this.#lay(bytesOfWords(words)), names = this.#room(Number(given[1]));
            const output = this.#room(Number(given[1])), answer = this.#room(ANSWER_SIZE)[0];
            this.exports.ptext_names_in_memory(...given, ...names, ...output, answer);
            const view = this.heap.view();
            const number = (offset) => Number(view.getBigUint64(Number(answer) + offset, true));
            if (view.getUint8(Number(answer) + 32) === MEMORY) throw new NoMemory();
            const found = ([at], offset) => namesIn(this.#at(at, number(offset)));
            return { read: found(names, 0), output: found(output, 16)[0] ?? null };
        });
    }

    /**
     * Runs a command, the name of the tool first. `open` gets the name of each file that the command reads, and null
     * for standard input. It returns null if the file cannot be opened, or a function that reads it: that puts bytes
     * into the room that it gets and returns how many, 0 at the end. Before it waits, it may call its second argument,
     * which hands out the output so far. `take` gets the output in pieces, which it may not keep.
     *
     * Returns the exit status, the bytes of the messages, and the names that `names` finds. An error that a function
     * throws ends the run, and comes through.
     */
    run(words, open, take) {
        const out = new Collected(take), messages = [];
        let found = { read: [], output: null }, status = MEMORY;
        try {
            found = this.names(words);
            const readers = [open(null), null, null, ...found.read.map((name) => open(name))];
            const opened = Uint8Array.from(readers.slice(FIRST_FILE), (it) => (it ? 1 : 0));
            const flush = () => out.flush(), read = (number, room) => readers[number](room, flush);
            const write = (number, bytes) => (number === OUTPUT ? out.write(bytes) : messages.push(bytes.slice()));
            status = this.#guarded({ read, write }, () => {
                return this.exports.ptext_run_streams(...this.#lay(bytesOfWords(words)), ...this.#lay(opened));
            });
            out.flush();
        } catch (error) {
            if (!(error instanceof NoMemory)) throw error;
            messages.push(encode("ptext: out of memory\n"));
        }
        return { status, messages: joined(messages), ...found };
    }

    /** Lets go of the memory, if it is large. */
    release() {
        if (this.exports?.memory.buffer.byteLength > KEPT_MEMORY) this.exports = this.heap.memory = null;
    }

    /** Begins a call over an empty heap. A module whose call has failed is not called again. */
    #guarded(streams, call) {
        if (this.streams) throw new Error("a call within a call of the same module");
        this.release();
        if (!this.exports) {
            const host = { ...this.heap.imports(), ...this.#imports() };
            this.exports = new WebAssembly.Instance(this.module, { host }).exports;
        }
        this.heap.begin(this.exports.memory, Number(this.exports.__heap_base.value));
        this.streams = streams ?? {};
        this.short.clear();
        try {
            return call();
        } catch (error) {
            this.exports = null;
            throw error;
        } finally {
            this.streams = null;
            // (A view keeps the memory that it is of.)
            this.views = [];
        }
    }

    /**
     * The functions by which the module reads and writes. It asks again after a read that gave less than its room,
     * where 0 is not the end of the stream. By a write to a number with all bits changed it asks whether that stream
     * is sound: as each failure ends the run, it is.
     */
    #imports() {
        return {
            read: (number, at, size) => {
                if (this.short.delete(number)) return 0n;
                const room = this.#of(number, Number(at), Number(size)), count = this.streams.read(number, room);
                if (!(count >= 0 && count <= room.length)) throw new RangeError("a read of more than its room");
                if (count && count < room.length) this.short.add(number);
                return BigInt(count);
            },
            write: (number, at, size) => {
                if (number >= 0) this.streams.write(number, this.#of(number, Number(at), Number(size)));
                return size;
            },
        };
    }

    /** The bytes at an address of the memory. */
    #at(address, size) {
        return new Uint8Array(this.exports.memory.buffer, Number(address), size);
    }

    /** The bytes of a read or write. Most are those of the last one. (A memory that grew has left its views empty.) */
    #of(number, address, size) {
        const last = this.views[number];
        if (last && last.byteOffset === address && last.length === size) return last;
        return (this.views[number] = this.#at(address, size));
    }

    /** Returns the address and the size of a room, as the module takes them. */
    #room(size) {
        const address = this.heap.take(size);
        if (!address) throw new NoMemory();
        return [BigInt(address), BigInt(size)];
    }

    /** Lays bytes into memory. Returns their address and their size. */
    #lay(bytes) {
        const room = this.#room(bytes.length);
        this.#at(room[0], bytes.length).set(bytes);
        return room;
    }
}

/** Output that is handed on in pieces. */
class Collected {
    constructor(take) {
        this.take = take;
        this.room = new Uint8Array(PIECE);
        this.count = 0;
    }

    write(bytes) {
        let left = bytes;
        while (left.length > PIECE - this.count) {
            const free = PIECE - this.count;
            this.room.set(left.subarray(0, free), this.count);
            left = left.subarray(free);
            this.count = PIECE;
            this.flush();
        }
        this.room.set(left, this.count);
        this.count += left.length;
    }

    flush() {
        const { count } = this;
        this.count = 0;
        if (count) this.take(count === PIECE ? this.room : this.room.subarray(0, count));
    }
}

/** A function that reads pieces (strings, buffers, or views of buffers), when they are needed. */
export function readerOf(pieces) {
    const iterator = pieces[Symbol.iterator]();
    let piece = new Uint8Array(0), begin = 0;
    return (room) => {
        while (begin === piece.length) {
            const { done, value } = iterator.next();
            if (done) return 0;
            [piece, begin] = [bytesOf(value), 0];
        }
        const end = Math.min(piece.length, begin + room.length), count = end - begin;
        room.set(piece.subarray(begin, end));
        begin = end;
        return count;
    };
}

function encode(text) {
    return new TextEncoder().encode(text);
}

/** Whether this is a text or a buffer, all of whose bytes are there. */
export function isBytes(given) {
    if (typeof given === "string" || ArrayBuffer.isView(given)) return true;
    // (A buffer may be of another window, so it is known by its name.)
    return /^.object (Shared)?ArrayBuffer.$/.test(Object.prototype.toString.call(given));
}

/** The bytes of a string (as UTF-8), of a buffer, or of a view of one. */
export function bytesOf(given) {
    if (!isBytes(given)) throw new TypeError("a piece of an input is a string, an ArrayBuffer or a view of one");
    if (typeof given === "string") return encode(given);
    if (ArrayBuffer.isView(given)) return new Uint8Array(given.buffer, given.byteOffset, given.byteLength);
    return new Uint8Array(given);
}

/** One array of these. */
export function joined(pieces) {
    const whole = new Uint8Array(pieces.reduce((sum, it) => sum + it.length, 0));
    pieces.reduce((at, it) => (whole.set(it, at), at + it.length), 0);
    return whole;
}

/** The size of a block with room for this many bytes. */
function wholeSize(size) {
    if (size + HEADER_SIZE > PAGE_SIZE) return Math.ceil((size + HEADER_SIZE) / PAGE_SIZE) * PAGE_SIZE;
    let whole = 2 * HEADER_SIZE;
    while (whole < size + HEADER_SIZE) whole *= 2;
    return whole;
}

/** Throws unless these are words. */
export function checkWords(words) {
    if (!Array.isArray(words) || words.some((it) => typeof it !== "string")) {
        throw new TypeError("words are a list of strings, as ['cut', '-f', '1']");
    }
    if (words.some((it) => it.includes("\0"))) throw new Error("a word contains byte 0");
    // (As UTF-8 it would be another character.)
    if (words.some((it) => /\p{Surrogate}/u.test(it))) throw new Error("a word contains half a surrogate pair");
}

/** Each word, and byte 0 after it. */
function bytesOfWords(words) {
    checkWords(words);
    return encode(words.map((it) => `${it}\0`).join(""));
}

function namesIn(bytes) {
    return new TextDecoder("utf-8", { ignoreBOM: true }).decode(bytes).split("\0").slice(0, -1);
}
