// Measures WebAssembly: runs over 20 MB in memory, by the package in node and by the worker of the page in browsers.
// usage: node bench/browsers.mjs [OTHER] [ENGINE..]    prints a table in MB/s of input, the best of several runs; with
// OTHER, a module, as many of that in brackets (build/onefile/ptext.wasm has no vectors). The engines are those here.
import fs from "node:fs";
import path from "node:path";
import { fileURLToPath, pathToFileURL } from "node:url";
import { Browser } from "../bindings/page/tests/chromium.mjs";
import { room } from "../bindings/page/tests/shown.mjs";
import { Firefox, WebKit, endAll, until } from "../bindings/page/tests/webdriver.mjs";

const BUILT = path.join(path.dirname(path.dirname(fileURLToPath(import.meta.url))), "build");
const { Ptext, readerOf } = await import(pathToFileURL(`${BUILT}/node/module.mjs`).href);
const PAGE = pathToFileURL(`${BUILT}/page/ptext.html`).href;
/** The commands, and the forms of the lines of their inputs, in which # is the number of a line in 7 digits, % a third
 * of it, and @ twice as much. */
const COMMANDS = [
    ["cut -d , -f 2", ["#,some,words,#\n"]],
    ["cut -b 3-9", ["#,some,words,#\n"]],
    ["paste -d , - right", ["#,some words\n", "@,other words\n"]],
    ["join -t , - right", ["#,some words\n", "@,other words\n"]],
    ["comm - right", ["#,some words\n", "@,some words\n"]],
    ["uniq -c", ["%,some words\n"]],
    ["tr a-z A-Z", ["#,some,words,#\n"]],
    ["tr -d 0-9", ["#,some,words,#\n"]],
];
const SIZE = 20e6, TURNS = 5;

// ---- what runs in a page, too: these functions use nothing else of this file

/** Lines of this form, as many as have about this size. */
function makeInput(form, size) {
    const bytes = new Uint8Array(size), digits = (number) => String(Math.floor(number)).padStart(7, "0");
    let at = 0;
    for (let number = 0; at < size - 100; number++) {
        const line = form.replaceAll("#", digits(number)).replace("@", digits(2 * number))
            .replace("%", digits(number / 3));
        at += new TextEncoder().encodeInto(line, bytes.subarray(at)).written;
    }
    return bytes.slice(0, at);
}

/** The best time of each command by each module, in milliseconds. `begin` makes a function that runs a command. */
async function measure(begin, modules, commands, size, turns) {
    const found = [];
    for (const [command, forms] of commands) {
        const inputs = forms.map((it) => makeInput(it, size / forms.length)), times = modules.map(() => Infinity);
        const runs = await Promise.all(modules.map((it) => begin(it)));
        for (let turn = 0; turn < turns; turn++) {
            for (const [index, run] of runs.entries()) {
                const [stdin, right] = inputs.map((it) => it.slice()), began = performance.now();
                const { status, whole } = await run(command.split(" "), stdin, right);
                times[index] = Math.min(times[index], performance.now() - began);
                await whole;
                if (status > 1) throw new Error(`${command}: status ${status}`);
            }
        }
        found.push(inputs.reduce((sum, it) => sum + it.length, 0), times);
    }
    return found;
}

/** Runs by a worker as the page has it: until what is shown is there. The whole of a long output comes after it. */
async function beginInPage(encoded) {
    const scripts = ["library", "worker"].map((id) => document.getElementById(id).textContent);
    const worker = new Worker(URL.createObjectURL(new Blob(scripts, { type: "text/javascript" })));
    const answer = () => new Promise((good, bad) => {
        [worker.onerror, worker.onmessage] = [bad, ({ data }) => data.part || good(data)];
    });
    const ask = async (call, ...given) => {
        worker.postMessage(call, given);
        const { status, first, size } = await answer();
        return { status, whole: size > first.length ? answer() : null };
    };
    const bytes = Uint8Array.from(atob(encoded), (it) => it.charCodeAt(0));
    worker.postMessage({ module: await WebAssembly.compile(bytes) });
    await ask({ number: 1, commands: [["uniq"]], stdin: "", files: [] });
    return (words, stdin, right) => ask({ number: 2, commands: [words], stdin, files: right ? [["right", right]] : [] },
        stdin.buffer, ...(right ? [right.buffer] : []));
}

// ---- engines

async function beginInNode(encoded) {
    const ptext = await Ptext.load(Buffer.from(encoded, "base64"));
    return (words, stdin, right) => ptext.run(words, (name) => readerOf([name === null ? stdin : right]), () => {});
}

async function inBrowser(browser, modules) {
    await browser.begin?.();
    await browser.open(PAGE);
    await until(() => browser.value(`document.body && document.body.dataset.ready === "yes"`));
    const given = [modules, COMMANDS, SIZE, TURNS].map((it) => JSON.stringify(it)).join(", ");
    const call = `measure(beginInPage, ${given}).then(JSON.stringify, String)
        .then((it) => (document.body.dataset.measured = it));`;
    const text = JSON.stringify([makeInput, measure, beginInPage, call].join("\n"));
    await browser.value(`((it) => { it.textContent = ${text}; document.body.append(it); })
        (document.createElement("script"))`);
    const found = JSON.parse(await until(() => browser.value("document.body.dataset.measured"), 900));
    await browser.close?.();
    return found;
}

const chromium = "/usr/bin/chromium";
const ENGINES = {
    node: (modules) => measure(beginInNode, modules, COMMANDS, SIZE, TURNS),
    Chromium: (modules) => inBrowser(new Browser(chromium, room), modules),
    Firefox: (modules) => inBrowser(new Firefox(), modules),
    WebKitGTK: (modules) => inBrowser(new WebKit(), modules),
};

async function main(other, ...engines) {
    const files = [`${BUILT}/node/ptext.wasm`, ...(other ? [other] : [])];
    const modules = files.map((it) => fs.readFileSync(it, "base64")), columns = new Map();
    for (const it of engines.length ? engines : Object.keys(ENGINES)) columns.set(it, await ENGINES[it](modules));
    console.log(`| Command | ${[...columns.keys()].join(" | ")} |\n|---|${"---|".repeat(columns.size)}`);
    for (const [row, [command]] of COMMANDS.entries()) {
        const cells = [...columns.values()].map((found) => {
            const [now, before] = found[2 * row + 1].map((it) => Math.round(found[2 * row] / it / 1000));
            return before ? `${now} (${before})` : now;
        });
        console.log(`| \`${command}\` | ${cells.join(" | ")} |`);
    }
}

main(...process.argv.slice(2)).catch((error) => {
    console.log(String(error));
    process.exitCode = 1;
}).finally(() => {
    endAll();
    fs.rmSync(room, { recursive: true, force: true, maxRetries: 5 });
    process.exit();
});
