// Runs commands beside a page, one at a time. The page sends the compiled module with each.
import { Ptext, isBytes, readerOf } from "./module.mjs";

/** How much of a Blob is read at a time. */
const PART = 2 ** 20;
let kept = null;

function* partsOf(input) {
    if (isBytes(input)) yield input;
    else if (input instanceof Blob) {
        const reader = new FileReaderSync();
        for (let at = 0; at < input.size; at += PART) yield reader.readAsArrayBuffer(input.slice(at, at + PART));
    } else yield* input;
}

self.onmessage = ({ data: { module, words, stdin, files, memory } }) => {
    try {
        const ptext = memory === undefined ? (kept ??= new Ptext(module)) : new Ptext(module, memory);
        const open = (name) => {
            const input = name === null ? stdin : files.get(name);
            return (input ?? null) === null ? null : readerOf(partsOf(input));
        };
        const did = ptext.run(words, open, (it) => {
            const piece = it.slice();
            self.postMessage({ piece }, [piece.buffer]);
        });
        ptext.release();
        self.postMessage({ did });
    } catch (error) {
        self.postMessage({ error });
    }
};
