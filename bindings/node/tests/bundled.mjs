// Tests of the package for node in a page: a program that esbuild has bundled, in Chromium, beside the program.
// usage: node bindings/node/tests/bundled.mjs CHROMIUM FOLDER PROGRAM
import { execFileSync, spawnSync } from "node:child_process";
import fs from "node:fs";
import http from "node:http";
import path from "node:path";
import { Browser } from "../../page/tests/chromium.mjs";
import { counts, is, room } from "../../page/tests/shown.mjs";

const [chromium, folder] = process.argv.slice(2), program = path.resolve(process.argv[4]);
const KINDS = { ".html": "text/html", ".js": "text/javascript", ".mjs": "text/javascript" };
const FILES = { f: "a 1\nb 2\nb 2\n", g: "a x\nb y\nc z\n" };
const COMMANDS = [
    ["cut", "-d", " ", "-f", "2"], ["paste", "-d", ",", "-", "f", "g"], ["join", "f", "g"], ["comm", "f", "g"],
    ["uniq", "-c"], ["tr", "a-z", "A-Z"], ["cut", "-q"], ["cut", "-f", "1", "f", "none"],
];
let browser = null, server = null;

/** Makes a page of the bundled program. */
function bundle() {
    fs.mkdirSync(`${room}/node_modules`);
    fs.symlinkSync(path.resolve(folder), `${room}/node_modules/ptext`);
    fs.writeFileSync(`${room}/app.js`, `import { PtextError, run } from "ptext/browser";
        Object.assign(globalThis, { PtextError, run });`);
    const words = ["app.js", "--bundle", "--format=esm", "--outdir=site", "--log-level=warning"];
    is("esbuild says nothing", execFileSync("esbuild", words, { cwd: room, encoding: "utf8" }), "");
    for (const it of ["browser-worker.mjs", "module.mjs", "ptext.wasm"]) {
        fs.copyFileSync(`${folder}/${it}`, `${room}/site/${it}`);
    }
    fs.writeFileSync(`${room}/site/page.html`, '<!doctype html><script type="module" src="app.js"></script>');
}

/** Serves the page. Returns its address. */
async function serve() {
    server = http.createServer(({ url }, answer) => {
        const file = `${room}/site${url}`, isThere = fs.existsSync(file);
        answer.writeHead(isThere ? 200 : 404, { "content-type": KINDS[path.extname(url)] ?? "application/wasm" });
        answer.end(isThere ? fs.readFileSync(file) : "");
    });
    await new Promise((after) => server.listen(0, "127.0.0.1", after));
    return `http://127.0.0.1:${server.address().port}/page.html`;
}

/** What a call gives, or throws: both as texts. */
const call = (words, options) => browser.value(`run(${JSON.stringify(words)}, ${options})
    .then((it) => ["", it && new TextDecoder().decode(it)], (it) => [it.name, it.messages ?? it.message])`);

async function main() {
    bundle();
    const address = await serve();
    browser = new Browser(chromium, room);
    await browser.open(address);
    is("the program is there", await browser.until("globalThis.run"), true);
    for (const [name, text] of Object.entries(FILES)) fs.writeFileSync(`${room}/${name}`, text);
    for (const words of COMMANDS) {
        const did = spawnSync(program, words, { cwd: room, input: FILES.f, encoding: "utf8" });
        const wanted = did.status ? ["PtextError", did.stderr] : ["", did.stdout];
        is(words.join(" "), await call(words, JSON.stringify({ stdin: FILES.f, files: FILES })), wanted);
    }
    is("a Blob, and a list of pieces", await call(["paste", "-", "f"], `{ stdin: new Blob(["a\\n", "b\\n"]),
        files: new Map([["f", ["1", new Uint8Array([10, 50, 10])]]]) }`), ["", "a\t1\nb\t2\n"]);
    const million = `{ stdin: new Blob(["0123456789\\n".repeat(10 ** 6)]), write: (it) => (size += it.length) }`;
    is("output in pieces", await browser.value(`{ globalThis.size = 0;
        run(["tr", "5", "x"], ${million}).then((it) => [it, size]); }`), [null, 11 * 10 ** 6]);
    const thrown = '{ write: () => { throw new Error("enough"); }, stdin: "a" }';
    is("output that is not taken", await call(["uniq"], thrown), ["Error", "enough"]);
    is("an end by a signal", await call(["uniq"], `{ stdin: "a\\n".repeat(10 ** 7), signal: AbortSignal.timeout(1) }`),
        ["TimeoutError", "signal timed out"]);
    is("too little memory", (await call(["uniq"], `{ stdin: "x".repeat(10 ** 6), memory: 10 ** 5 }`))[0], "PtextError");
    is("an unknown option", (await call(["uniq"], "{ stdIn: 1 }"))[1].split(":")[0], "there is no option stdIn");
    is("no input", (await call(["uniq"], "{ stdin: 7 }"))[0], "TypeError");
    const many = `Promise.all(Array.from({ length: 9 }, (_, it) => run(["uniq"], { stdin: it + "\\n" })))
        .then((all) => all.map((it) => new TextDecoder().decode(it)).join(""))`;
    is("nine at once", await browser.value(many), "0\n1\n2\n3\n4\n5\n6\n7\n8\n");
    fs.renameSync(`${room}/site/ptext.wasm`, `${room}/site/other`);
    await browser.open(address);
    await browser.until("globalThis.run");
    is("no module", (await call(["uniq"], "{}"))[1].endsWith("/ptext.wasm: 404 Not Found"), true);
    fs.renameSync(`${room}/site/other`, `${room}/site/ptext.wasm`);
    is("it is there again", await call(["uniq"], '{ stdin: "a" }'), ["", "a\n"]);
    await browser.close();
    console.log(`${counts.tests} tests of the bundled package in Chromium: ${counts.failed} failed`);
}

/** Ends the browser and the server, and removes all files. */
function end(status) {
    browser?.child.kill("SIGKILL");
    server?.close();
    fs.rmSync(room, { recursive: true, force: true, maxRetries: 5 });
    process.exit(status);
}

for (const it of ["SIGTERM", "SIGINT", "SIGHUP"]) process.on(it, () => end(1));
main().catch((error) => {
    console.log(`FAILED: ${error.stack}`);
    counts.failed++;
}).finally(() => end(counts.failed ? 1 : 0));
