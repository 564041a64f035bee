// cut, paste, join, comm, uniq and tr in a page, by the proved library as WebAssembly. browser.d.ts describes its call.
import { checkOptions, checkStatus, mapOf } from "./checks.mjs";
import { checkWords, joined } from "./module.mjs";

export { PtextError } from "./checks.mjs";

/** How many workers that have ended their run are kept for the next one. */
const KEPT = 4;
const workers = [];
let compiled = null;

async function compile() {
    const answer = await fetch(new URL("./ptext.wasm", import.meta.url));
    if (!answer.ok) throw new Error(`${answer.url}: ${answer.status} ${answer.statusText}`);
    return WebAssembly.compile(await answer.arrayBuffer());
}

export async function run(words, options = {}) {
    checkOptions(options, ["stdin", "files", "memory", "write", "signal"]);
    checkWords(words);
    const { stdin = "", files: given = {}, memory, write, signal } = options, out = [];
    const files = mapOf(given), take = write ?? ((piece) => out.push(piece));
    compiled ??= compile();
    const module = await compiled.catch((error) => {
        compiled = null;
        throw error;
    });
    signal?.throwIfAborted();
    const worker = workers.pop() ?? new Worker(new URL("./browser-worker.mjs", import.meta.url), { type: "module" });
    let isKept = false, stop = null;
    try {
        const { did, error } = await new Promise((good, bad) => {
            stop = () => bad(signal.reason);
            signal?.addEventListener("abort", stop);
            worker.onerror = (event) => bad(new Error(event.message ?? "the worker cannot be loaded"));
            worker.onmessage = ({ data }) => {
                try {
                    if (data.piece) take(data.piece);
                    else good(data);
                } catch (error) {
                    bad(error);
                }
            };
            worker.postMessage({ module, words, stdin, files, memory });
        });
        isKept = workers.length < KEPT;
        if (error) throw error;
        const whole = joined(out);
        checkStatus(did, files, whole);
        return write ? undefined : whole;
    } finally {
        signal?.removeEventListener("abort", stop);
        if (isKept) workers.push(worker);
        else worker.terminate();
    }
}
