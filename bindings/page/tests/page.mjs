// Tests of the module of a page, and of the scripts around it, by node. usage: node bindings/page/tests/page.mjs MODULE
import fs from "node:fs";
import { checkTools, commands, runAll, Refused } from "../command.mjs";
import { Heap, Ptext, joined, readerOf } from "../ptext.mjs";
import { firstOf, shown } from "../shown.mjs";

const module = fs.readFileSync(process.argv[2]);
let tests = 0, failed = 0;

function is(what, found, wanted) {
    tests++;
    const [one, two] = [found, wanted].map((it) => JSON.stringify(it));
    if (one !== two) {
        failed++;
        console.log(`FAILED: ${what}\nwanted: ${two.slice(0, 300)}\nfound:  ${one.slice(0, 300)}`);
    }
}

const encode = (text) => new TextEncoder().encode(text);
const decode = (bytes) => new TextDecoder("utf-8", { ignoreBOM: true }).decode(bytes);
const load = (limit) => Ptext.load(module, limit);
const ptext = await load();

/** Runs a command over bytes, whose output is one array. */
function runOver(words, stdin, files, by = ptext) {
    const out = [], read = (given) => readerOf([given]);
    const open = (name) => (name === null ? read(stdin) : files.has(name) ? read(files.get(name)) : null);
    const did = by.run(words, open, (piece) => out.push(piece.slice()));
    return { ...did, out: joined(out) };
}

/** Runs commands as they are typed. */
function runTyped(text, stdin = "", files = {}, by = ptext) {
    const one = (words, input, known) => runOver(words, input, known, by);
    return runAll(one, commands(text), stdin, new Map(Object.entries(files)));
}

function run(...given) {
    const did = runTyped(...given);
    return [did.status, decode(did.out), decode(did.messages)];
}

// ---- commands: the text, standard input, the files, and the status, the output and the messages that are wanted
const CASES = [
    ["cut -d : -f 1,3", "root:x:0\nbin:x:1\n", {}, [0, "root:0\nbin:1\n", ""]],
    ["ptext cut -c 3-,1", "abcd\n", {}, [0, "acd\n", ""]],
    ["cut -b 2", "ab\ncd", {}, [0, "b\nd\n", ""]],
    ["cut -z -f 2 -d ' '", "a b\0c d\0", {}, [0, "b\0d\0", ""]],
    ["cut -c 1 f g", "", { f: "ab\n", g: "cd\n" }, [0, "a\nc\n", ""]],
    ["cut -c 1 f none g", "", { f: "ab\n", g: "cd\n" }, [1, "a\nc\n", "cut: none: cannot be opened\n"]],
    ["cut -q", "", {}, [2, "", "cut: unknown option in -q\n"]],
    ["cut -f 0", "", {}, [2, "", "cut: wrong value for option -f: 0\n"]],
    ["cut", "", {}, [2, "", "cut: one of -b, -c and -f is needed\n"]],
    ["paste -d , - -", "1\n2\n3\n", {}, [0, "1,2\n3,\n", ""]],
    ["paste -s -d ',;' -", "a\nb\nc\nd\n", {}, [0, "a,b;c,d\n", ""]],
    ["paste f - g", "1\n", { f: "a\nb\n", g: "x" }, [0, "a\t1\tx\nb\t\t\n", ""]],
    ["paste - none", "a\n", {}, [1, "", "paste: none: cannot be opened\n"]],
    ["join names -", "1 tea\n1 milk\n", { names: "1 ann\n2 bob\n" }, [0, "1 ann tea\n1 ann milk\n", ""]],
    ["join -a 1 -t , -e - -o 0,1.2,2.2 f g", "", { f: "a,1\nb,2\n", g: "a,x\n" }, [0, "a,1,x\nb,2,-\n", ""]],
    ["join f g", "", { f: "b 1\na 2\n", g: "a x\nb z\n" }, [1, "b 1 z\n", "join: f: line 2 is out of order\n"]],
    ["comm f g", "", { f: "a\nb\n", g: "b\nc\n" }, [0, "a\n\t\tb\n\tc\n", ""]],
    ["comm -12 f -", "b\n", { f: "a\nb\n" }, [0, "b\n", ""]],
    ["uniq -c", "a\na\nb\n", {}, [0, "2 a\n1 b\n", ""]],
    ["uniq - once", "a\na\n", {}, [0, "a\n", ""]],
    ["tr -cs '[:alpha:]' '[\\n*]'", "one, two.\n", {}, [0, "one\ntwo\n", ""]],
    ["tr a-z A-Z", "hello\n", {}, [0, "HELLO\n", ""]],
    ["tr z-a b", "", {}, [2, "", "tr: wrong string1: descending\n"]],
    ["tr -s ' ' | cut -d ' ' -f 2", "ann   7\nbob  12\n", {}, [0, "7\n12\n", ""]],
    ["cut -q | tr a b", "", {}, [0, "", "cut: unknown option in -q\n"]],
    ["uniq - f | cut -c 1 - f", "ab\nab\n", {}, [0, "a\n", ""]],
    ["cut -f 1 ''", "", { "": "a\n" }, [0, "a\n", ""]],
    ["cut -f 1 'ä ö'", "", { "ä ö": "é\n" }, [0, "é\n", ""]],
];
for (const [text, stdin, files, wanted] of CASES) is(text, run(text, stdin, files), wanted);

// ---- nothing, wrong words, and bytes that are no text
for (const tool of ["cut -f 1", "paste -", "uniq", "tr a b", "comm f f", "join f f"]) {
    is(`nothing: ${tool}`, run(tool, "", { f: "" }), [0, "", ""]);
}
is("no words", run("")[0], 2);
is("ptext alone", run("ptext")[0], 2);
const every = Uint8Array.from({ length: 256 }, (_, index) => index);
is("all bytes", runOver(["tr", "-d", "\\n"], every).out, every.filter((it) => it !== 10));

// ---- the names of files
is("names", ptext.names(["paste", "a", "-", "b"]), { read: ["a", "b"], output: null });
is("output", ptext.names(["uniq", "a", "b"]), { read: ["a"], output: "b" });
is("names of no command", ptext.names(["cut", "-q"]), { read: [], output: null });

is("a name with a mark of order", run("cut -f 1 '\ufefff'", "", { "\ufefff": "a\n", f: "b\n" }), [0, "a\n", ""]);

// ---- inputs of each type, and others
const halves = new Uint16Array([0x6261, 0x0a63]), inner = new Uint8Array([120, 97, 98, 10, 120]).subarray(1, 4);
const TYPES = [
    ["a string", "é\n", "é\n"],
    ["half a character of a string", "\ud800", "\ufffd\n"],
    ["no characters", "", ""],
    ["a view of 16-bit numbers", halves, "abc\n"],
    ["a DataView", new DataView(halves.buffer), "abc\n"],
    ["a buffer", halves.buffer, "abc\n"],
    ["a shared buffer", new SharedArrayBuffer(2), "\0\0\n"],
    ["bytes within a buffer", inner, "ab\n"],
];
for (const [what, given, wanted] of TYPES) {
    is(`standard input: ${what}`, decode(runOver(["cut", "-b", "1-"], given).out), wanted);
    is(`a file: ${what}`, decode(runOver(["cut", "-b", "1-", "f"], "", new Map([["f", given]])).out), wanted);
}
/** The name of the error of a call, or nothing. */
function errorOf(call) {
    try {
        call();
    } catch (error) {
        return error.name;
    }
    return "";
}
for (const given of [null, 7, {}, [97, 10], new Date(0), new Blob(["a"])]) {
    const files = new Map([["f", given]]);
    is(`standard input is refused: ${given}`, errorOf(() => runOver(["uniq"], given)), "TypeError");
    is(`a file is refused: ${given}`, errorOf(() => runOver(["uniq", "f"], "", files)), "TypeError");
}
for (const words of ["uniq", undefined, ["cut", "-f", 1], [["uniq"]]]) {
    is(`words are refused: ${JSON.stringify(words)}`, errorOf(() => runOver(words, "")), "TypeError");
}
is("a word with byte 0", errorOf(() => runOver(["cut\0"], "")), "Error");

// ---- much: a megabyte, more output than input, two runs after one another, and a module that is loaded anew
const rows = Array.from({ length: 60000 }, (_, index) => `${index},some words,${index * 7}`);
const large = `${rows.join("\n")}\n`;
const second = `${rows.map((it) => it.split(",")[1]).join("\n")}\n`;
for (const turn of ["first", "second"]) is(`a megabyte, ${turn} run`, run("cut -d , -f 2", large), [0, second, ""]);
const pairs = Array.from({ length: 2000 }, (_, index) => `k ${index}`).join("\n");
const product = run("join f g", "", { f: pairs, g: `${pairs}\n` });
is("two thousand by two thousand lines", [product[0], product[1].length, product[2]], [0, 43560000, ""]);
is("a small run after it", run("cut -c 1", "ab\n"), [0, "a\n", ""]);
const ten = "0123456789\n".repeat(10 ** 6);
is("11 MB", run("tr 0-9 a-j", ten)[1] === "abcdefghij\n".repeat(10 ** 6), true);
const line = "x".repeat(5 * 10 ** 6);
is("one long line", run("cut -d , -f 1", line)[1].length, 5 * 10 ** 6 + 1);
const names = Array.from({ length: 500 }, (_, index) => `f${index}`);
const many = Object.fromEntries(names.map((it) => [it, `${it}\n`]));
is("500 files", run(`paste ${names.join(" ")}`, "", many), [0, `${names.join("\t")}\n`, ""]);

const none = Array.from({ length: 500 }, (_, index) => `${"none".repeat(50)}${index}`);
is("more than 64 KiB of messages", run(`cut -f 1 ${none.join(" ")}`),
    [1, "", none.map((it) => `cut: ${it}: cannot be opened\n`).join("")]);
is("the statuses of a chain", runTyped("cut -q | cut -f 1 - none | tr a b", "a\n").statuses, [2, 1, 0]);
is("the messages of a chain", run("cut -q | cut -f 1 - none | tr a"), [2, "", "cut: unknown option in -q\n"
    + "cut: none: cannot be opened\ntr: wrong number of operands\n"]);

// ---- pieces: how often each stream is read, what a short read is, and where the output goes
const lines = ["1 ann", "\n2 b", "", "ob\n3", " cid\n"];
for (const size of [1, 2, 5, 8191, 8192, 8193, 100000]) {
    const long = "0123456789".repeat(20000), read = { count: 0 }, found = [];
    const open = () => {
        let left = encode(long);
        return (into) => {
            read.count++;
            const part = left.subarray(0, Math.min(size, into.length));
            into.set(part);
            left = left.subarray(part.length);
            return part.length;
        };
    };
    ptext.run(["tr", "0-9", "a-j"], open, (piece) => found.push(piece.slice()));
    is(`reads of ${size} bytes`, decode(joined(found)) === "abcdefghij".repeat(20000), true);
    is(`they end once: ${size}`, read.count, Math.ceil(200000 / Math.min(size, 8192)) + 1);
}
is("pieces of lines", decode(runOver(["cut", "-d", " ", "-f", "2"], lines.join("")).out), "ann\nbob\ncid\n");
let wasFlushed = false;
const early = [];
ptext.run(["cut", "-b", "1"], () => {
    const pieces = ["ab\n", "cd\n"];
    return (into, flush) => {
        flush();
        wasFlushed ||= early.length > 0 && pieces.length > 0;
        const piece = encode(pieces.shift() ?? "");
        into.set(piece);
        return piece.length;
    };
}, (piece) => early.push(decode(piece)));
is("output before an input is waited for", [wasFlushed, early.join("")], [true, "a\nc\n"]);
for (const wrong of [-1, 2 ** 20, NaN, "x"]) {
    is(`a read of ${wrong} bytes`, errorOf(() => ptext.run(["uniq"], () => () => wrong, () => {})), "RangeError");
}
const nested = () => ptext.run(["uniq"], () => () => ptext.names(["uniq"]).length, () => {});
is("a call within a call", errorOf(nested), "Error");
is("a run after these", run("cut -c 1", "ab\n"), [0, "a\n", ""]);

// ---- a module after calls of several kinds
const sizeOf = (it) => it.exports.memory.buffer.byteLength;
is("300 MB", run("tr x y", "x".repeat(3 * 10 ** 8))[1].length, 3 * 10 ** 8);
is("they take no memory of the module", sizeOf(ptext) < 6 * 2 ** 20, true);
is("100 MB in a line", run("uniq", "x".repeat(10 ** 8))[0], 0);
is("they are stored", sizeOf(ptext) > 10 ** 8, true);
is("a small run after it", run("cut -c 1", "ab\n"), [0, "a\n", ""]);
is("its module is a new one", sizeOf(ptext) < 6 * 2 ** 20, true);
ptext.release();
is("it is kept", sizeOf(ptext) > 0, true);
is("100 MB in a line again", run("uniq", "x".repeat(10 ** 8))[0], 0);
ptext.release();
is("its memory is let go", [ptext.exports, ptext.views], [null, []]);
// A call that the host ends leaves the module as it stopped, with its part of the stack taken.
const stopped = await load();
for (let turn = 0; turn < 1000; turn++) {
    const open = () => () => {
        throw new RangeError("stopped");
    };
    const error = errorOf(() => stopped.run(["join", "f", "g"], open, () => {}));
    if (error !== "RangeError" || stopped.exports) is(`the host ends call ${turn}`, [error, stopped.exports], []);
}
const full = () => {
    throw new SyntaxError("full");
};
is("the output is not taken", errorOf(() => stopped.run(["uniq"], () => readerOf(["a\n"]), full)), "SyntaxError");
is("a run after calls that failed", run("join f g", "", { f: "a 1\n", g: "a 2\n" }, stopped), [0, "a 1 2\n", ""]);

// ---- a guard after each block that the module gets: nothing is written there
const guarded = await load(), GUARD = 64, rooms = new Map(), ofHeap = guarded.heap;
const [take, give, start] = ["take", "give", "begin"].map((name) => ofHeap[name].bind(ofHeap));
let faultsOfGuards = 0, looked = 0;
const guard = (at, size) => {
    if (!at) return at;
    ofHeap.bytes().fill(0xa5, at + size, at + size + GUARD);
    rooms.set(at, size);
    return at;
};
const look = (at) => {
    const end = at + rooms.get(at);
    looked++;
    if (!ofHeap.bytes().subarray(end, end + GUARD).every((it) => it === 0xa5)) faultsOfGuards++;
    rooms.delete(at);
};
ofHeap.begin = (...given) => {
    for (const at of [...rooms.keys()]) look(at);
    start(...given);
};
ofHeap.take = (size) => guard(take(size + GUARD), size);
ofHeap.give = (at) => {
    look(at);
    give(at);
};
ofHeap.resize = (at, kept, size) => {
    const moved = ofHeap.take(size);
    if (!moved) return 0;
    ofHeap.bytes().copyWithin(moved, at, at + kept);
    ofHeap.give(at);
    return moved;
};
is("a guarded run", run("join f - | uniq -c", "k 1\n", { f: "k 2\n" }, guarded), [0, "1 k 2 1\n", ""]);
const keys = "k some words\n".repeat(300);
is("a guarded run that stores lines", run("join f -", keys, { f: keys }, guarded)[1].length, 300 * 300 * 24);
is("names", guarded.names(["paste", "a", "-", "b"]), { read: ["a", "b"], output: null });
is("the guards", [looked > 20, faultsOfGuards], [true, 0]);

// ---- the worker: it answers each run, also one that fails
const answers = [];
globalThis.self = { postMessage: (message) => answers.push(message) };
await import("../worker.mjs");
globalThis.self.onmessage({ data: { module: ptext.module } });
globalThis.self.onmessage({ data: { number: 1, commands: [["uniq", 7]], stdin: "", files: [] } });
globalThis.self.onmessage({ data: { number: 2, commands: [["uniq", "-c"]], stdin: "a\n", files: [] } });
is("the worker after a run that fails", [answers[0].number, answers[0].error.split(":")[0]], [1, "TypeError"]);
is("its next run", [answers[1].number, decode(answers[1].first), answers[1].size], [2, "1 a\n", 4]);
const megabytes = "0123456789\n".repeat(500000), toWorker = (data) => globalThis.self.onmessage({ data });
toWorker({ number: 3, commands: [["tr", "a", "b"]], stdin: megabytes, files: [] });
const parts = answers.filter((it) => it.part);
is("a part of the output", [parts[0].part.first.length, parts[0].part.size], [65537, 2 ** 20]);
const [shownFirst, { whole }] = answers.slice(-2);
is("what is shown goes first", [shownFirst.first.length, shownFirst.size, shownFirst.status], [65537, 5500000, 0]);
is("the whole", await whole.text() === megabytes, true);
// (Each output of this chain is longer than the room where it is collected.)
const longer = "0123456789\n".repeat(4 * 10 ** 6);
toWorker({ number: 4, commands: [["tr", "0", "a"], ["tr", "1", "b"]], stdin: longer, files: [] });
const both = await answers.at(-1).whole.text();
is("a chain of long outputs", both === longer.replaceAll("01", "ab"), true);
toWorker({ number: 5, commands: [["cut", "-b", "1-4"], ["cut", "-b", "2"]], stdin: megabytes, files: [] });
is("a run after it", await answers.at(-1).whole.text() === "1\n".repeat(500000), true);

// ---- want of memory
const middle = await load(2 ** 26), halfLine = "x".repeat(3 * 10 ** 7);
is("a line of nearly half of the memory", run("uniq", halfLine, {}, middle)[0], 0);
const [status, , message] = run("uniq", `${halfLine}${halfLine}${halfLine}`, {}, middle);
is("one of more than all of it", [status, message], [4, "uniq: out of memory\n"]);
const small = await load(2 ** 12);
is("too little memory", run("cut -d , -f 2", "x", {}, small).slice(0, 2), [4, ""]);
is("none", run("cut -d , -f 2", "x", {}, await load(0)), [4, "", "ptext: out of memory\n"]);
for (const [text, stdin, files, wanted] of CASES) {
    if (commands(text).length > 1) continue;
    for (let request = 0; ; request++) {
        middle.heap.refused = request;
        const [found, out] = run(text, stdin, files, middle);
        if (found !== 4) {
            is(`without request ${request} of ${text}`, [found, out], wanted.slice(0, 2));
            break;
        }
        is(`request ${request} of ${text}`, wanted[1].startsWith(out), true);
    }
}
middle.heap.refused = -1;

// ---- the heap: what the contracts of its three calls say, in a random order of calls
const heap = new Heap(2 ** 22), blocks = [];
heap.begin(new WebAssembly.Memory({ initial: 1 }), 1001);
let seed = 1, faults = 0, refusals = 0;
const random = (below) => (seed = (seed * 48271) % 2147483647) % below;
const holds = ({ at, size, mark }) => heap.bytes().subarray(at, at + size).every((it) => it === mark);
/** Fills a new block, which is apart from all others. */
function fill(at, size) {
    const isApart = blocks.every((it) => at >= it.at + it.size || it.at >= at + size);
    if (!isApart || at % 16 || at < 1001 || at + size > heap.memory.buffer.byteLength) faults++;
    const block = { at, size, mark: random(256) };
    heap.bytes().fill(block.mark, at, at + size);
    blocks.push(block);
}
for (let turn = 0; turn < 5000; turn++) {
    const size = [random(100), random(60000), random(600000)][random(3)], index = random(blocks.length || 1);
    if (blocks.length < 20 || random(3) === 0) {
        const at = heap.take(size);
        if (at) fill(at, size);
        else refusals++;
        continue;
    }
    const [block] = blocks.splice(index, 1);
    if (!holds(block)) faults++;
    if (random(2)) {
        heap.give(block.at);
        continue;
    }
    const kept = Math.min(block.size, size), at = heap.resize(block.at, kept, size);
    if (!holds({ at: at || block.at, size: at ? kept : block.size, mark: block.mark })) faults++;
    if (at) fill(at, size);
    else blocks.push(block);
}
is("blocks of the heap", [faults, blocks.every(holds), refusals > 0], [0, true, true]);
is("no block of that size", [heap.take(2 ** 40), heap.take(2 ** 63)], [0, 0]);

// ---- words
const QUOTES = [
    ["a  b\tc ", [["a", "b", "c"]]],
    ["'a b' \"c d\" e\\ f", [["a b", "c d", "e f"]]],
    ["'' \"\" x''y", [["", "", "xy"]]],
    ["'\\n' \"\\n\" \\n \"\\\\ \\\" \\$ \\`\"", [["\\n", "\\n", "n", "\\ \" $ `"]]],
    ["a'b\"c'\"d'e\"", [["ab\"cd'e"]]],
    ["ptext cut | ptext tr '|' \\|", [["cut"], ["tr", "|", "|"]]],
    ["tr a$ '$x' x#~ \"$\"", [["tr", "a$", "$x", "x#~", "$"]]],
    ["tr [a-z] '*?' \\* \"?\"", [["tr", "[a-z]", "*?", "*", "?"]]],
    ["", [[]]],
];
for (const [text, wanted] of QUOTES) is(`words of ${text}`, commands(text), wanted);
const REFUSED = ["cut *.txt", "cut f?", "cut > f", "cut < f", "cut; tr", "cut & tr", "a || b", "| a", "a |", "$x",
    "\"$x\"", "`a`", "\"`a`\"", "(a)", "$'a'", "${x}", "$(a)", "'a", "\"a", "a\\", "a #b", "~/f"];
for (const text of REFUSED) {
    let message = "";
    try {
        commands(text);
    } catch (error) {
        message = error instanceof Refused ? error.message : "";
    }
    is(`refused: ${text}`, message !== "", true);
}

for (const text of ["sort", "uniq | sort | uniq -c", "ptext sort", "CUT -b 1"]) {
    let message = "";
    try {
        checkTools(commands(text));
    } catch (error) {
        message = error instanceof Refused ? error.message : "";
    }
    const named = text.startsWith("CUT") ? "CUT" : "sort";
    is(`no tool: ${text}`, message, `${named} is not in this page, which has cut, paste, join, comm, uniq, tr`);
}
checkTools(commands("ptext | cut | paste | join | comm | uniq | tr"));

// ---- bytes as they are shown
const marked = ({ isText, text }) => (isText ? text : `<${text}>`);
const asShown = (...bytes) => shown(Uint8Array.from(bytes)).map(marked).join("");
is("text", asShown(...encode("aé€😀\t\n")), "aé€😀\t\n");
is("a mark of order stays", asShown(0xef, 0xbb, 0xbf, 97), "\ufeffa");
is("bytes that are no text", asShown(97, 0xff, 0xfe, 98, 0, 0x7f), "a<\\xff\\xfe>b<\\x00\\x7f>");
is("half characters", asShown(0xc3, 97, 0xe2, 0x82), "<\\xc3>a<\\xe2\\x82>");
is("no surrogates", asShown(0xed, 0xa0, 0x80), "<\\xed\\xa0\\x80>");
for (const bytes of [[0xc0, 0x80], [0xc1, 0xbf], [0xe0, 0x80, 0xaf], [0xe0, 0x9f, 0xbf], [0xf0, 0x80, 0x80, 0xaf],
    [0xf0, 0x8f, 0xbf, 0xbf], [0xf4, 0x90, 0x80, 0x80], [0xf5, 0x80, 0x80, 0x80], [0xf8, 0x88, 0x80, 0x80, 0x80]]) {
    const wanted = bytes.map((it) => `\\x${it.toString(16)}`).join("");
    is(`no longer form of a character, and none above the last: ${wanted}`, asShown(...bytes), `<${wanted}>`);
}
for (const text of ["\u07ff", "\u0800", "\ud7ff", "\ue000", "\uffff", "\u{10000}", "\u{10ffff}"]) {
    is(`the first and the last of each length: ${encode(text)}`, asShown(...encode(text)), text);
}
is("no bytes", asShown(), "");
is("the first bytes", [3, 4, 5].map((it) => firstOf(encode("ab€c"), it).length), [2, 2, 5]);

console.log(`${tests} tests by node: ${failed} failed`);
process.exit(failed ? 1 : 0);
