// Calls of the package for node, for tools/same.py, each one JSON object in a line: {words, stdin, files}, with the
// pieces of each input in base64, and `isSync` if it is run in this thread. The answer has `status`, `out`, `messages`,
// and the names of the files, `read` and `output`.
import path from "node:path";
import readline from "node:readline";
import { pathToFileURL } from "node:url";

const { PtextError, names, run, stream } = await import(pathToFileURL(path.resolve(process.argv[2])));

const decoded = (pieces) => pieces.map((it) => Buffer.from(it, "base64"));

async function* awaited(pieces) {
    yield* pieces;
}

async function answer({ words, stdin, files, isSync }) {
    const given = isSync ? decoded(stdin).values() : awaited(decoded(stdin));
    // (A file that is named twice is read twice.)
    const options = { stdin: given, files: new Map(Object.entries(files).map(([name, it]) => [name, decoded(it)])) };
    const out = [];
    let status = 0, messages = "";
    try {
        if (isSync) run(words, { ...options, write: (piece) => out.push(piece.slice()) });
        else for await (const piece of stream(words, options)) out.push(piece);
    } catch (error) {
        if (!(error instanceof PtextError)) throw error;
        ({ status, messages } = error);
    }
    return { status, out: Buffer.concat(out).toString("base64"), messages, ...names(words) };
}

for await (const line of readline.createInterface({ input: process.stdin })) {
    process.stdout.write(`${JSON.stringify(await answer(JSON.parse(line)))}\n`);
}
