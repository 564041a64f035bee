// Tests of the package for node. usage: node bindings/node/tests/node.mjs FOLDER
import { spawn, spawnSync } from "node:child_process";
import { once } from "node:events";
import fs from "node:fs";
import os from "node:os";
import path from "node:path";
import { Readable, Transform } from "node:stream";
import { pathToFileURL } from "node:url";

const folder = path.resolve(process.argv[2]), entry = pathToFileURL(`${folder}/ptext.mjs`).href;
const { PtextError, names, run, stream } = await import(entry);
const room = fs.mkdtempSync(path.join(os.tmpdir(), "ptext-node-"));
let tests = 0, failed = 0;

function is(what, found, wanted) {
    tests++;
    const [one, two] = [found, wanted].map((it) => JSON.stringify(it) ?? "nothing");
    if (one !== two) {
        failed++;
        console.log(`FAILED: ${what}\nwanted: ${two.slice(0, 300)}\nfound:  ${one.slice(0, 300)}`);
    }
}

const text = (bytes) => Buffer.from(bytes).toString();

/** All of a stream. */
async function all(pieces) {
    const found = [];
    for await (const it of pieces) found.push(it);
    return text(Buffer.concat(found));
}

/** What a call throws, or its promise. */
async function thrown(call) {
    try {
        await call();
    } catch (error) {
        return error;
    }
    return null;
}

function* pieces(...given) {
    yield* given;
}

async function* awaited(...given) {
    for (const it of given) {
        await new Promise((after) => setTimeout(after, 1));
        yield it;
    }
}

// ---- each kind of input
const LINES = "1,ann\n2,bob\n", SHORT = ["cut", "-d", ",", "-f", "2"], NAMES = "ann\nbob\n";
fs.writeFileSync(`${room}/a file`, LINES);
const url = pathToFileURL(`${room}/a file`), bytes = Buffer.from(LINES);
const SYNC = [
    ["a string", () => LINES],
    ["a Buffer", () => bytes],
    ["an ArrayBuffer", () => Uint8Array.from(bytes).buffer],
    ["a view of 16-bit numbers", () => new Uint16Array(Uint8Array.from(bytes).buffer)],
    ["a list of pieces", () => ["1,a", "", Buffer.from("nn\n2"), ",bob\n"]],
    ["a generator", () => pieces("1,", bytes.subarray(2))],
    ["a file", () => url],
];
const ASYNC = [
    ["an async generator", () => awaited("1,a", "nn\n2,bob\n")],
    ["a Readable", () => Readable.from([bytes.subarray(0, 3), bytes.subarray(3)])],
    ["a file as a Readable", () => fs.createReadStream(url, { highWaterMark: 5 })],
    ["a ReadableStream", () => new Blob([LINES]).stream()],
    ["a Blob", () => new Blob(["1,ann\n", "2,bob\n"])],
    ["the output of a command", () => stream(["uniq"], { stdin: LINES })],
];
for (const [what, make] of SYNC) {
    is(`run: ${what}`, text(run(SHORT, { stdin: make() })), NAMES);
    is(`run: ${what} as a file`, text(run([...SHORT, "f"], { files: { f: make() } })), NAMES);
}
for (const [what, make] of [...SYNC, ...ASYNC]) {
    is(`stream: ${what}`, await all(stream(SHORT, { stdin: make() })), NAMES);
    const files = new Map([["f", make()]]);
    is(`stream: ${what} as a file`, await all(stream([...SHORT, "-", "f"], { files })), NAMES);
}
is("no inputs", [text(run(["uniq"])), await all(stream(["uniq"]))], ["", ""]);
const three = { stdin: "1\n", files: { a: "2\n", b: "3\n" } };
is("files of an object", text(run(["paste", "-", "b", "a"], three)), "1\t3\t2\n");
const twice = await all(stream(["paste", "f", "f"], { files: { f: url } }));
is("a file that is named twice", twice, "1,ann\t1,ann\n2,bob\t2,bob\n");
const blob = { f: new Blob(["1\n", "2\n"]) };
is("a Blob that is named twice", await all(stream(["paste", "f", "f"], { files: blob })), "1\t1\n2\t2\n");
is("names", names(["uniq", "a", "b"]), { read: ["a"], output: "b" });
is("an output file", text(run(["uniq", "a", "b"], { files: { a: "x\nx\n" } })), "x\n");

// ---- errors
for (const call of [(words, options) => run(words, options), (words, options) => all(stream(words, options))]) {
    const wrong = await thrown(() => call(["cut", "-q"]));
    is("no command", [wrong instanceof PtextError, wrong.status, wrong.message, wrong.messages, wrong.unknown],
        [true, 2, "cut: unknown option in -q", "cut: unknown option in -q\n", []]);
    const lacking = await thrown(() => call(["cut", "-f", "1", "f", "constructor"], { files: { f: "a" } }));
    is("a file that is not there", [lacking.status, lacking.message, lacking.unknown], [1,
        'cut: constructor: cannot be opened (`files` has no "constructor": no file is opened by its name)',
        ["constructor"]]);
    const tooLong = { stdin: "x".repeat(10 ** 6), memory: 10 ** 5 };
    is("too little memory", (await thrown(() => call(["uniq"], tooLong))).status, 4);
    is("a limit", text(Buffer.from(await call(["uniq"], { stdin: "a\n", memory: 10 ** 5 }))), "a\n");
    is("it is only of its own call", (await call(["uniq"], { stdin: tooLong.stdin })).length, 10 ** 6 + 1);
    for (const memory of [NaN, "1", null, -1]) {
        is(`memory is refused: ${memory}`, (await thrown(() => call(["uniq"], { memory }))).name, "TypeError");
    }
    for (const stdin of [7, null, {}, true]) {
        is(`standard input is refused: ${stdin}`, (await thrown(() => call(["uniq"], { stdin }))).name, "TypeError");
        if (stdin === null) continue;
        const refused = await thrown(() => call(["uniq"], { files: { stdin } }));
        is(`a file is refused: ${stdin}`, refused.name, "TypeError");
    }
    for (const files of [null, 7, "f"]) {
        is(`files are refused: ${files}`, (await thrown(() => call(["uniq"], { files }))).message,
            "files has to be an object or a Map, with inputs by their names");
    }
    for (const words of ["uniq", undefined, ["cut", "-f", 1], ["cut", Symbol("x")], ["cut", () => 1]]) {
        is(`words are refused: ${words?.map?.(String) ?? words}`, (await thrown(() => call(words))).message,
            "words are a list of strings, as ['cut', '-f', '1']");
    }
    is("a piece is refused", (await thrown(() => call(["uniq"], { stdin: pieces("a", 7) }))).name, "TypeError");
    for (const name of ["stdIn", "file", "Memory"]) {
        const refused = await thrown(() => call(["uniq"], { [name]: "a" }));
        is(`an unknown option: ${name}`, [refused.name, refused.message.split(":")[0]],
            ["TypeError", `there is no option ${name}`]);
    }
    for (const word of ["\ud83d", "a\udca9b", "\udca9\ud83d"]) {
        is(`half a pair in a word: ${JSON.stringify(word)}`, (await thrown(() => call(["tr", "a", word]))).message,
            "a word contains half a surrogate pair");
    }
    is("a pair in a word", text(Buffer.from(await call(["uniq", "💩"], { files: { "💩": "a\n" } }))), "a\n");
    is("byte 0 in a word", (await thrown(() => call(["cut\0"]))).message, "a word contains byte 0");
    const none = new URL("none", url);
    is("a file that does not exist", (await thrown(() => call(["uniq"], { stdin: none }))).code, "ENOENT");
    is("an input that fails", (await thrown(() => call(["uniq"], { stdin: (function* () {
        yield "a\n";
        throw new Error("mine");
    })() }))).message, "mine");
    const once = pieces("a\n");
    is("read twice", (await thrown(() => call(["paste", "f", "f"], { files: { f: once } }))).message,
        "f is read twice, and can be read only once");
    const again = { f: new Set(["a\n", "b\n"]), g: { [Symbol.iterator]: () => pieces("c\n", "d\n") } };
    const four = text(Buffer.from(await call(["paste", "f", "g", "f", "g"], { files: again })));
    is("iterables that can be read again", four, "a\tc\ta\tc\nb\td\tb\td\n");
    is("after all of these", text(Buffer.from(await call(["uniq"], { stdin: "a\na\n" }))), "a\n");
}
const partly = await thrown(() => run(["cut", "-b", "1", "-", "none"], { stdin: "ab\n" }));
is("the output of a run that fails", text(partly.out), "a\n");

const kinds = [() => run(["uniq"], { stdin: awaited("a") }), () => stream(["uniq"], { files: { f: 7 } })];
is("what is taken is said", [(await thrown(kinds[0])).message, (await thrown(kinds[1])).message], [
    "stdin is no input: a string, a buffer, an iterable of these, or the URL of a file " +
        "(`run` takes nothing that is waited for)",
    'files["f"] is no input: a string, a buffer, an iterable of these (also an async one, as a stream), a Blob, ' +
        "or the URL of a file",
]);
for (const write of [5, true, "f"]) {
    is(`write is refused: ${write}`, (await thrown(() => run(["uniq"], { write }))).name, "TypeError");
}

// ---- pieces
const large = Buffer.alloc(3 * 10 ** 6, "0123456789\n"), wanted = text(large).replaceAll("5", "x");
const found = [];
is("run with write", run(["tr", "5", "x"], { stdin: large, write: (piece) => found.push(piece.slice()) }), undefined);
is("its pieces", [found.length, text(Buffer.concat(found)) === wanted], [46, true]);
is("a stream", await all(stream(["tr", "5", "x"], { stdin: large })) === wanted, true);
const cut = [large.subarray(0, 1), large.subarray(1, 8193), large.subarray(8193, 10 ** 6), large.subarray(10 ** 6)];
is("a stream of pieces", await all(stream(["tr", "5", "x"], { stdin: awaited(...cut) })) === wanted, true);
const many = stream(["tr", "5", "x"], { stdin: large.subarray(0, 10 ** 5) }).getReader();
const atOnce = (await Promise.all(Array.from({ length: 10 }, () => many.read()))).filter((it) => !it.done);
is("reads at once", text(Buffer.concat(atOnce.map((it) => it.value))) === wanted.slice(0, 10 ** 5), true);
is("pieces of their own", new Set(atOnce.map((it) => it.value.buffer)).size, atOnce.length);
const chain = stream(["uniq", "-c"], { stdin: stream(["tr", "-d", "0-9"], { stdin: large }) });
is("a chain", await all(chain), "272727 \n");
let inner = "";
run(["uniq"], { stdin: "a\nb\n", write: () => (inner += text(run(["uniq", "-c"], { stdin: "c\n" }))) });
is("a run within a run", inner, "1 c\n");
const upper = new Transform({ transform: (piece, _, end) => end(null, piece) });
is("by a Transform", await all(Readable.fromWeb(stream(["cut", "-b", "1-"], { stdin: LINES })).pipe(upper)), LINES);
const twelve = Array.from({ length: 12 }, (_, index) => index);
const joins = twelve.map((it) => ({ stdin: awaited(`${it} a\n`), files: { f: awaited(`${it} b\n`) } }));
const together = joins.map((it) => all(stream(["join", "-", "f"], it)));
is("twelve at once", await Promise.all(together), twelve.map((it) => `${it} a b\n`));

// ---- nothing is read ahead, and a stream that is left ends its inputs
let reads = 0, isClosed = false;
async function* endless() {
    try {
        for (;;) {
            reads++;
            yield "some line\n".repeat(1000);
        }
    } finally {
        isClosed = true;
    }
}
const waiting = stream(["uniq", "-c"], { stdin: endless() });
await new Promise((after) => setTimeout(after, 50));
is("nothing is read before the output", reads, 0);
await waiting.cancel();
for await (const piece of stream(["tr", "a", "b"], { stdin: endless() })) {
    is("the first piece", piece.length > 0, true);
    break;
}
await new Promise((after) => setTimeout(after, 50));
is("it was left", [isClosed, reads < 20], [true, true]);
const never = stream(["uniq"], { stdin: (async function* () {
    await new Promise(() => {});
})() });
const reader = never.getReader(), pending = reader.read();
await new Promise((after) => setTimeout(after, 50));
await reader.cancel();
is("a stream that waits is left", (await pending).done, true);
let isCancelled = false, silent = null;
const isRead = new Promise((pull) => {
    silent = new ReadableStream({ pull, cancel: () => (isCancelled = true) }, { highWaterMark: 0 });
});
const outer = stream(["uniq"], { stdin: stream(["uniq"], { stdin: silent }) }).getReader(), waits = outer.read();
await isRead;
await outer.cancel();
is("its input that waits is cancelled", [(await waits).done, isCancelled], [true, true]);
const lent = new Blob(["a\n"]).stream();
for await (const it of stream(["uniq"], { stdin: lent })) void it;
is("a stream that was read is not locked", lent.locked, false);

// ---- a call that ends before its inputs do closes them: files, and iterators
const isOpen = () => fs.readdirSync("/proc/self/fd").some((it) => {
    try {
        return fs.readlinkSync(`/proc/self/fd/${it}`) === `${room}/long`;
    } catch {
        return false;
    }
});
fs.writeFileSync(`${room}/long`, large);
const long = pathToFileURL(`${room}/long`);
let ends = 0;
function* counted(...given) {
    try {
        yield* given;
    } finally {
        ends++;
    }
}
run(["cut", "-b", "1"], { stdin: long });
is("a file that was read is closed", isOpen(), false);
const stops = { write: () => {
    throw new Error("enough");
} };
is("output that is not taken", (await thrown(() => run(["uniq"], { stdin: long, ...stops }))).message, "enough");
await thrown(() => run(["comm", "f", "g"], { files: { f: long, g: counted("b\n", "a\n", large, large) } }));
await thrown(() => run(["uniq"], { stdin: counted(large, large), ...stops }));
is("a file of a run that ended early is closed, and iterators", [isOpen(), ends], [false, 2]);
for await (const piece of stream(["paste", "-", "f"], { stdin: long, files: { f: counted(large, large) } })) break;
await new Promise((after) => setTimeout(after, 100));
is("a file of a stream that ended early is closed, and iterators", [isOpen(), ends], [false, 3]);

// ---- a Readable that fails before it is read: its error comes through if it is read, and else it is nobody's
const missing = () => fs.createReadStream(new URL("none", url));
for (const words of [["uniq"], ["paste", "f", "-"]]) {
    const pieces = stream(words, { stdin: missing(), files: { f: awaited(..."a\n".repeat(30)) } });
    is(`a Readable that failed: ${words}`, (await thrown(() => all(pieces))).code, "ENOENT");
}
is("a failed one that is not read", await all(stream(["uniq", "f"], { stdin: missing(), files: { f: "a" } })), "a\n");
const shared = missing(), commands = twelve.map(() => stream(["uniq", "f"], { stdin: shared, files: { f: "a" } }));
await Promise.all(commands.map((it) => it.cancel()));
is("one listens, however many commands get it", shared.listenerCount("error"), 1);
await stream(["uniq"], { stdin: missing() }).cancel();

// ---- an input of which nothing is read stays as it was
const unread = fs.createReadStream(url), first = (stdin) => all(stream(["cut", "-b", "1"], { stdin }));
is("another file is read", await all(stream(["uniq", "f"], { stdin: unread, files: { f: "a" } })), "a\n");
is("and this one after it", await first(unread), await first(url));

// ---- output comes as it is there: a line of a slow input is not held back
const order = [];
for await (const piece of stream(["cut", "-b", "1"], { stdin: (async function* () {
    for (const it of ["a1\n", "b2\n"]) {
        order.push(it[0]);
        yield it;
    }
    order.push("end");
})() })) order.push(text(piece));
is("the order", order, ["a", "a\n", "b", "b\n", "end"]);

// ---- a process ends though threads are kept, also with a stream that nobody reads to its end
const script = `import { stream } from ${JSON.stringify(entry)};
    for await (const it of stream(["uniq"], { stdin: process.stdin })) process.stdout.write(it);
    const left = stream(["uniq"], { stdin: (async function* () { for (;;) yield "a\\nb\\n".repeat(10 ** 5); })() });
    await left.getReader().read();`;
const did = spawnSync("node", ["--input-type=module", "-e", script], { input: "a\na\nb\n", timeout: 60000 });
is("a process", [did.status, text(did.stdout), text(did.stderr)], [0, "a\nb\n", ""]);
const leaving = `import { stream } from ${JSON.stringify(entry)};
    const reader = stream(["cut", "-b", "1"], { stdin: process.stdin }).getReader();
    await reader.read();
    setTimeout(() => reader.cancel(), 200);
    await reader.read();`;
const child = spawn("node", ["--input-type=module", "-e", leaving], { stdio: ["pipe", "inherit", "inherit"] });
const late = setTimeout(() => child.kill(), 20000);
child.stdin.write("ab\n");
is("a process that leaves a stream does not wait for its standard input", await once(child, "exit"), [0, null]);
clearTimeout(late);

const refusing = `import { stream } from ${JSON.stringify(entry)};
    for (const words of [["cut", Symbol("x")], ["cut", () => 1], ["cut\\0"]]) {
        try {
            stream(words);
        } catch (error) {
            process.stdout.write(error.name + " ");
        }
    }
    const changed = ["cut", "-f", "1"], pieces = stream(changed, { stdin: "a\\tb\\n" });
    changed[2] = Symbol("x");
    for await (const it of pieces) process.stdout.write(it);
    const late = stream(["paste", "f"], { files: new Map([["f", "a"], [Symbol("x"), "b"]]) });
    await late.getReader().read().catch(() => {});
    setTimeout(() => process.stdout.write("end"), 300);`;
const refused = spawnSync("node", ["--input-type=module", "-e", refusing], { timeout: 60000 });
is("a process goes on after words that are refused", [refused.status, text(refused.stdout), text(refused.stderr)],
    [0, "TypeError TypeError Error a\nend", ""]);

// ---- a stream that is dropped ends its command, whose thread and files go with it
const dropping = `import fs from "node:fs";
    import { stream } from ${JSON.stringify(entry)};
    const stdin = new URL(${JSON.stringify(long)});
    const counts = () => ["task", "fd"].map((it) => fs.readdirSync("/proc/self/" + it).length);
    const first = async () => {
        const reader = stream(["tr", "a", "b"], { stdin }).getReader();
        await reader.read();
        return reader;
    };
    const pause = () => new Promise((after) => setTimeout(after, 20));
    const collected = async (wanted) => {
        for (let turn = 0; turn < 200 && counts().some((it, index) => it > wanted[index]); turn++) {
            gc();
            await pause();
        }
        return counts();
    };
    await (await first()).cancel();
    for (let turn = 0; turn < 20; turn++) await pause();
    const before = counts();
    for (let count = 0; count < 40; count++) await first();
    const grown = counts(), after = await collected(before);
    process.stdout.write(JSON.stringify([grown.every((it, index) => it > before[index]), after, before]));`;
const dropped = spawnSync("node", ["--expose-gc", "--input-type=module", "-e", dropping], { timeout: 120000 });
const [hasGrown, left, wasThere] = JSON.parse(text(dropped.stdout) || "[]");
is("40 streams that are dropped", [hasGrown, left?.every((it, index) => it <= wasThere[index]), text(dropped.stderr)],
    [true, true, ""]);

// ---- by pipeline, the documented way, with a slow reader of standard output: 330 MB take at most 16 MB more than none
const piping = `import { pipeline } from "node:stream/promises";
    import { stream } from ${JSON.stringify(entry)};
    const most = () => process.resourceUsage().maxRSS;
    for await (const _ of stream(["tr", "5", "x"])) throw new Error("an empty input has output");
    const before = most(), piece = Buffer.from("0123456789\\n".repeat(10 ** 5));
    const stdin = (function* () { for (let count = 0; count < 300; count++) yield piece; })();
    await pipeline(stream(["tr", "5", "x"], { stdin }), process.stdout);
    process.stderr.write(String(most() - before < 2 ** 14));`;
const slow = ["-c", 'node --input-type=module -e "$1" | { sleep 2; tail -c 5; }', "sh", piping];
const piped = spawnSync("sh", slow, { timeout: 60000 });
is("a pipeline", [text(piped.stdout), text(piped.stderr)], ["6789\n", "true"]);

// ---- a thread that died, while it was kept or while it ran a command; and one that has much memory is not kept
const counting = `import { createRequire, syncBuiltinESMExports } from "node:module";
    const threads = createRequire("/")("node:worker_threads"), { Worker } = threads, made = [];
    threads.Worker = class extends Worker {
        constructor(...given) {
            super(...given);
            made.push(this);
        }
    };
    syncBuiltinESMExports();
    const { stream } = await import(${JSON.stringify(entry)});`;
const dying = `${counting}
    const all = async (stdin) => {
        let found = "";
        for await (const it of stream(["uniq"], { stdin })) found += Buffer.from(it);
        return found;
    };
    const one = await all("a\\na\\n");
    await made[0].terminate();
    const two = await all("b\\n");
    const why = await all((async function* () {
        await made[1].terminate();
        yield "c\\n";
    })()).catch((error) => error.message);
    process.stdout.write(JSON.stringify([one, two, why, await all("d\\n"), made.length]));`;
const died = spawnSync("node", ["--input-type=module", "-e", dying], { timeout: 60000 });
is("threads that died", [text(died.stdout), text(died.stderr)],
    ['["a\\n","b\\n","the thread of the command has ended","d\\n",3]', ""]);
const keeping = `${counting}
    const counts = [];
    for (const size of [1, 1, 4 * 10 ** 7, 1]) {
        for await (const it of stream(["uniq"], { stdin: ["x".repeat(size)] }));
        counts.push(made.length);
    }
    process.stdout.write(JSON.stringify(counts));`;
const kept = spawnSync("node", ["--input-type=module", "-e", keeping], { timeout: 60000 });
is("threads that are made", [text(kept.stdout), text(kept.stderr)], ["[1,1,1,2]", ""]);

// ---- the package: npm's files, the licenses, and the types
const about = JSON.parse(fs.readFileSync(`${folder}/package.json`));
is("the version", about.version, fs.readFileSync("VERSION", "utf8").trim());
const licenses = fs.readFileSync(`${folder}/LICENSES`, "utf8");
is("licenses", ["MIT License", "Apache License", "memchr", "arrayvec"].filter((it) => !licenses.includes(it)), []);
is("documented", fs.readFileSync(`${folder}/README.md`, "utf8").includes("stream("), true);
const exported = Object.keys(await import(entry)).sort();
const typed = [...fs.readFileSync(`${folder}/ptext.d.ts`, "utf8").matchAll(/^export (?:function|class) (\w+)/gm)];
is("types of all that is exported", [...new Set(typed.map((it) => it[1]))].sort(), exported);

fs.rmSync(room, { recursive: true });
console.log(`${tests} tests of the package for node: ${failed} failed`);
process.exit(failed ? 1 : 0);
