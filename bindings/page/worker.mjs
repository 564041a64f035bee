// Runs commands beside the page, so that it stays responsive. The page sends a compiled module first.
import { Ptext, isBytes, joined, readerOf } from "./ptext.mjs";
import { runAll } from "./command.mjs";

/** How much of a Blob is read at a time, in bytes. */
const PART = 2 ** 20;
/** How much of the output is sent to be shown. (The last byte tells whether there is more.) */
const SENT = 65537;
/** The time between two reports of how long the output is so far, in milliseconds. */
const PAUSE = 100;
/** The longest output that is kept: a browser has no more room for Blobs than some gigabytes. */
const MOST = 2 ** 31;
/** Where an output is collected. (New memory, or a Blob, for each part of it would take longer than the command.) */
const room = new Uint8Array(2 ** 25);

let ptext = null;

/** Whether Blobs can be read here. (WebKit lets no worker do so whose page is from a folder.) */
function canRead() {
    try {
        return new FileReaderSync().readAsArrayBuffer(new Blob(["a"])).byteLength === 1;
    } catch {
        return false;
    }
}

const CAN_READ = canRead();

/** The bytes of an input: of a text, of a file that was chosen, or of a list of bytes and Blobs. Of a Blob, one part at
 * a time is in memory. */
function* partsOf(input) {
    if (Array.isArray(input)) for (const it of input) yield* partsOf(it);
    else if (isBytes(input)) yield input;
    else {
        const reader = new FileReaderSync();
        for (let at = 0; at < input.size; at += PART) yield reader.readAsArrayBuffer(input.slice(at, at + PART));
    }
}

/** An output: what was in the room when that was full, and the number of bytes that are there now. */
class Output {
    constructor(tell) {
        Object.assign(this, { tell, told: 0, next: PART, size: 0, count: 0, kept: [], first: null });
    }

    add(piece) {
        if (this.count + piece.length > room.length) this.keep();
        room.set(piece, this.count);
        this.count += piece.length;
        this.size += piece.length;
        if (this.size > MOST) throw new Error("the output has more than 2 GiB, which this page does not keep");
        if (this.tell && this.size >= this.next) this.report();
    }

    /** Makes the room empty. The browser keeps Blobs outside of the memory of scripts. */
    keep() {
        this.begin();
        const bytes = room.subarray(0, this.count);
        this.kept.push(CAN_READ ? new Blob([bytes]) : bytes.slice());
        this.count = 0;
    }

    /** What is shown of it. */
    begin() {
        return (this.first ??= room.slice(0, Math.min(this.count, SENT)));
    }

    report() {
        this.next = this.size + PART;
        const now = performance.now();
        if (now - this.told < PAUSE) return;
        this.tell({ size: this.size, ...(!this.told && { first: this.begin() }) });
        this.told = now;
    }

    /** All of it, for the next command, which may have the room. */
    whole() {
        return [...this.kept, room.slice(0, this.count)];
    }

    /** All of it, for the page. */
    blob() {
        return new Blob([...this.kept, room.subarray(0, this.count)]);
    }
}

/** Runs a command. `tell`, if it is not null, gets the beginning of its output and how long it is so far. */
function run(words, stdin, files, tell) {
    const read = (input) => readerOf(partsOf(input));
    const open = (name) => (name === null ? read(stdin) : files.has(name) ? read(files.get(name)) : null);
    const out = new Output(tell), did = ptext.run(words, open, (piece) => out.add(piece));
    return { ...did, out: tell ? out : out.whole() };
}

self.onmessage = ({ data }) => {
    if (data.module) {
        ptext = new Ptext(data.module);
        return;
    }
    const { number, commands, stdin, files } = data, tell = (part) => self.postMessage({ number, part });
    try {
        const one = (words, input, known, isLast) => run(words, input, known, isLast ? tell : null);
        const { out, ...did } = runAll(one, commands, stdin, files), first = out.begin();
        self.postMessage({ number, ...did, first, size: out.size });
        // (A browser needs longer to take a long output than it took to make it: what is shown goes first.)
        if (out.size > first.length) self.postMessage({ number, whole: out.blob() });
    } catch (error) {
        self.postMessage({ number, error: String(error) });
    }
};
