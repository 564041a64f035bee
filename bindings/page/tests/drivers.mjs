// Tests of a built page in Firefox or in WebKitGTK: examples, a file, a link, and long output, beside the program.
// usage: node bindings/page/tests/drivers.mjs firefox|webkit PAGE PROGRAM
import fs from "node:fs";
import path from "node:path";
import { pathToFileURL } from "node:url";
import { FIELDS, RESULT, byProgram, counts, is, numbered, room } from "./shown.mjs";
import { Firefox, WebKit, endAll, until } from "./webdriver.mjs";

const [name, page, program] = process.argv.slice(2);
const address = pathToFileURL(path.resolve(page)).href;
const browser = name === "firefox" ? new Firefox() : new WebKit();
const shows = (expression, seconds) => until(() => browser.value(expression), seconds).then(() => true, () => false);
const textOf = (id) => `document.getElementById("${id}").textContent`;

/** Types a text into a field, in the place of what is there. */
function type(id, text) {
    return browser.value(`((it) => {
        it.value = ${JSON.stringify(text)};
        it.dispatchEvent(new Event("input", { bubbles: true }));
    })(document.getElementById("${id}"))`);
}

async function examples() {
    is("the page is ready", await shows(`document.body.dataset.ready === "yes"`), true);
    const count = await browser.value(`document.querySelectorAll("[data-example]").length`);
    for (let number = 0; number < count; number++) {
        const click = `document.querySelector('[data-example="${number}"]').click()`;
        await browser.value(`(document.getElementById("status").textContent = "", ${click})`);
        is(`example ${number} is run`, await shows(`${textOf("status")}.startsWith("Status")`), true);
        const fields = await browser.value(FIELDS);
        is(`example: ${fields.command}`, numbered(await browser.value(RESULT)), byProgram(fields, program));
    }
}

/** A file of 64 MB, which the worker reads in parts, through two commands. */
async function file() {
    fs.writeFileSync(`${room}/large`, Buffer.alloc(64 * 10 ** 6, "some,words,here\n"));
    await type("command", "cut -d , -f 2 | tr a-z A-Z");
    await browser.choose("stdin-open", `${room}/large`);
    is("a file is chosen", await shows(`${textOf("stdin-held")}.startsWith("64,000,000 bytes")`), true);
    const wanted = "24,000,000 bytes, of which the first 65,536 are shown";
    is("its output", await shows(`${textOf("size")} === "${wanted}"`, 120), true);
    const status = "Status 0: the output of the last command was written";
    is("its status", await shows(`${textOf("status")} === "${status}"`), true);
    const offered = `document.getElementById("download").href.startsWith("blob:")`;
    is("all of it is offered", await shows(`${offered} && !document.getElementById("copy").disabled`), true);
    is("the beginning", await browser.value(`${textOf("out")} === "WORDS\\n".repeat(10923).slice(0, 65536)`), true);
}

async function link() {
    await browser.open(`${address}#command=uniq+-c+f&name1=f&file1=a%0Aa%0A%C3%A9%0A`);
    is("a link", await shows(`${textOf("out")} === "2 a\\n1 é\\n"`), true);
    await browser.value(`(location.hash = "command=tr+a+b&stdin=banana")`);
    is("another link", await shows(`${textOf("out")} === "bbnbnb"`), true);
    is("its fields", (await browser.value(FIELDS)).name1, "");
}

async function main() {
    await browser.begin();
    await browser.open(address);
    await examples();
    await file();
    await link();
    console.log(`${counts.tests} tests in ${name}: ${counts.failed} failed`);
}

/** Ends all that was started and removes all files. */
function end(status) {
    endAll();
    fs.rmSync(room, { recursive: true, force: true, maxRetries: 5 });
    process.exit(status);
}

for (const it of ["SIGTERM", "SIGINT", "SIGHUP"]) process.on(it, () => end(1));
main().catch((error) => {
    console.log(`FAILED: ${error.stack}`);
    counts.failed++;
}).finally(() => end(counts.failed ? 1 : 0));
