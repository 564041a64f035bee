// Runs commands beside the thread that reads their output, one at a time. At each step it sends what it wants, and
// waits until that was given: bytes of an input, or that the output was taken. Both lie in `piece`.
import { parentPort, workerData } from "node:worker_threads";
import { Ptext } from "./module.mjs";

const { module, shared } = workerData;
const control = new Int32Array(shared, 0, 2), piece = new Uint8Array(shared, 8);
let kept = null;

/** Waits for the answer to a step: a number of bytes. */
function ask(step) {
    parentPort.postMessage(step);
    // (The call that wakes this thread may come late, when the thread has gone on and waits for the next answer.)
    while (!Atomics.load(control, 0)) Atomics.wait(control, 0, 0);
    Atomics.store(control, 0, 0);
    return control[1];
}

/** A function that reads a stream. It keeps what it was given and could not hand on. */
function readerOf(number, name) {
    let kept = new Uint8Array(0), begin = 0, end = 0;
    return (room, flush) => {
        if (begin === end) {
            flush();
            [begin, end] = [0, ask({ reads: [number, name] })];
            if (kept.length < end) kept = new Uint8Array(piece.length);
            kept.set(piece.subarray(0, end));
        }
        const part = kept.subarray(begin, Math.min(end, begin + room.length));
        room.set(part);
        begin += part.length;
        return part.length;
    };
}

function run({ words, known, memory }) {
    const ptext = memory === undefined ? (kept ??= new Ptext(module)) : new Ptext(module, memory);
    const files = new Set(known);
    let count = 0;
    const open = (name) => (name === null || files.has(name) ? readerOf(count++, name) : null);
    const ended = ptext.run(words, open, (bytes) => {
        piece.set(bytes);
        ask({ size: bytes.length });
    });
    ptext.release();
    // (A thread that waits collects no garbage: one that had much memory is not kept.)
    return { ended, isSmall: ptext.exports !== null };
}

parentPort.on("message", (command) => {
    let last = null;
    try {
        last = run(command);
    } catch (error) {
        last = { ended: true, error };
    }
    parentPort.postMessage(last);
});
