// Tests of a built page in Chromium without a window: types, clicks, and compares with the program.
// usage: node browser.mjs CHROMIUM PAGE PROGRAM [PICTURE]      PICTURE: a picture of the page is put there
import fs from "node:fs";
import path from "node:path";
import { pathToFileURL } from "node:url";
import { Browser } from "./chromium.mjs";
import { FIELDS, RESULT, byProgram, counts, is, numbered, room } from "./shown.mjs";

const [chromium, page, program, picture] = process.argv.slice(2);
const address = pathToFileURL(path.resolve(page)).href;
let browser = null, stalls = 0;

/** Clicks the link, and compares the file with these bytes. */
async function downloaded(browser, wanted) {
    await browser.send("Page.setDownloadBehavior", { behavior: "allow", downloadPath: `${room}/downloads` });
    await browser.value(`document.getElementById("download").click()`);
    const file = `${room}/downloads/output.txt`;
    for (let turn = 0; turn < 500 && !fs.existsSync(file); turn++) await new Promise((after) => setTimeout(after, 20));
    is("the download", fs.existsSync(file) && fs.readFileSync(file).toString("hex"), wanted.toString("hex"));
}

async function typed(browser) {
    is("the page is ready", await browser.until(`document.body.dataset.ready === "yes"`), true);
    for (const it of ["stdin", "name1", "file1", "name2", "file2"]) await browser.type(it, "");
    await browser.type("stdin", "root:x:0\nbin:x:1\n");
    await browser.type("command", "cut -d : -f 1,3");
    is("typed", await browser.until(`(${RESULT}).out === "root:0\\nbin:1\\n"`), true);
    is("its status", (await browser.value(RESULT)).status, "Status 0: everything was written");
    await browser.type("name1", "names");
    await browser.type("file1", "b:2\n");
    await browser.type("command", "cut -d : -f 1 names nowhere");
    is("a file that is not there", await browser.until(`(${RESULT}).status.startsWith("Status 1: ")`), true);
    is("its result", numbered(await browser.value(RESULT)), byProgram(await browser.value(FIELDS), program));
    await browser.type("command", "cut -q");
    is("a wrong command", await browser.until(`(${RESULT}).status.startsWith("Status 2: ")`), true);
    const wrong = { status: 2, out: "", messages: "cut: unknown option in -q\n" };
    is("its message", numbered(await browser.value(RESULT)), wrong);
    await browser.type("command", "cut -q | tr a b");
    is("a wrong command before another", await browser.until(`(${RESULT}).status.startsWith("Status 0: ")`), true);
    is("its label", (await browser.value(RESULT)).status,
        "Status 0: the output of the last command was written, but a command before it ended with status 2");
    await browser.type("command", "cut -c 1 | tr a");
    is("the last of a chain is wrong", await browser.until(`(${RESULT}).status.startsWith("Status 2: ")`), true);
    is("its label", (await browser.value(RESULT)).status, "Status 2: the last command is wrong");
    await browser.type("name2", "names");
    const same = `document.getElementById("same").textContent`;
    is("two files of one name", await browser.until(`${same}.startsWith("File 1 has this name, too")`), true);
    await browser.type("name2", "");
    is("one file of that name", await browser.until(`${same} === ""`), true);
    for (const [command, why] of [
        ["cut -f 1 > f", "this page does not do what > means in a shell: if it is meant as it is, write '>'"],
        ["sort | uniq -c", "sort is not in this page, which has cut, paste, join, comm, uniq, tr"],
        ["cut -f 1 *.txt", "this page knows no patterns of names: if * is meant as it is, write '*'"],
    ]) {
        await browser.type("command", command);
        is(`not taken: ${command}`, await browser.until(`(${RESULT}).status === ${JSON.stringify(`Not run: ${why}`)}`),
            true);
    }
    await browser.type("command", "tr ab '\\377\\0'");
    await browser.type("stdin", "abc");
    is("escapes", await browser.until(`(${RESULT}).out === "\\\\xff\\\\x00c"`), true);
    is("they are marked", await browser.value(`document.querySelector("#out .escapes").textContent`), "\\xff\\x00");
    const fetching = `fetch("https://example.org").then(() => "read", () => "refused")`;
    is("nothing is fetched", await browser.value(fetching), "refused");
    await downloaded(browser, Buffer.from([255, 0, 99]));
}

async function clicked(browser) {
    const count = await browser.value(`document.querySelectorAll("[data-example]").length`);
    is("there are examples", count > 25, true);
    const labels = `Array.from(document.querySelectorAll("[data-example]"), (it) => it.textContent)`;
    is("their labels differ", await browser.value(`new Set(${labels}).size`), count);
    const seen = `Array.from(document.querySelectorAll("[data-example]")).filter((it) => it.offsetParent)
        .map((it) => it.textContent.split(" ")[0]).join(" ")`;
    is("one of each tool can be seen", await browser.value(seen), "cut paste join comm uniq tr");
    await browser.value(`document.getElementById("more").click()`);
    for (let number = 0; number < count; number++) {
        const button = `document.querySelector('[data-example="${number}"]')`;
        await browser.value(`document.getElementById("status").textContent = ""; ${button}.focus()`);
        // By the keyboard, as a person who cannot see the pointer does.
        await browser.press("Enter", 13, "\r");
        const shows = await browser.until(`document.getElementById("status").textContent.startsWith("Status")`);
        const fields = await browser.value(FIELDS);
        is(`example ${number} is run`, shows, true);
        is(`the button of example ${number}`, await browser.value(`${button}.textContent`), fields.command);
        is(`example: ${fields.command}`, numbered(await browser.value(RESULT)), byProgram(fields, program));
    }
}

async function large(browser) {
    for (const it of ["name1", "file1", "name2", "file2", "stdin"]) await browser.type(it, "");
    await browser.type("command", "tr 0-9 a-j");
    const paste = (id, text) => browser.value(`{ const it = document.getElementById("${id}"); it.value = ${text};
        it.dispatchEvent(new Event("input", { bubbles: true })); }`);
    // As the clipboard hands it over; and then a file of bytes that are no text.
    await browser.value(`{ const data = new DataTransfer();
        data.setData("text/plain", "012345678\\r\\n".repeat(1000000));
        const event = new ClipboardEvent("paste", { clipboardData: data, bubbles: true, cancelable: true });
        document.getElementById("stdin").dispatchEvent(event); }`);
    const size = `document.getElementById("size").textContent`;
    is("10 MB", await browser.until(`${size}.startsWith("10,000,000 bytes, of which")`, 60), true);
    is("their beginning", await browser.value(`document.getElementById("out").textContent.length`), 65536);
    is("they are held", await browser.value(`document.getElementById("stdin-held").textContent`),
        "10,000,000 characters, of which the beginning is shown.");
    await browser.value(`document.getElementById("stdin-empty").click()`);
    is("nothing", await browser.until(`${size} === "0 bytes"`), true);
    await browser.type("name1", "f");
    await browser.type("name2", "g");
    for (const it of ["file1", "file2"]) await paste(it, `"k some more words\\n".repeat(20000)`);
    // (With few bytes of output: at 2 GiB it would end.)
    await browser.type("command", "join -o 0 f g");
    is("a long run can be stopped", await browser.until(`!document.getElementById("stop").hidden`), true);
    await browser.press("Escape", 27);
    is("it is stopped", (await browser.value(RESULT)).status, "Stopped");
    await browser.type("command", "join -o 0,0 f g");
    await browser.until(`!document.getElementById("stop").hidden`);
    await browser.value(`document.getElementById("stop").click()`);
    is("it is stopped by its button", (await browser.value(RESULT)).status, "Stopped");
    await browser.type("command", "uniq -c f");
    is("a run after it", await browser.until(`(${RESULT}).out === "20000 k some more words\\n"`), true);
    // (As a person would, by keys, Chromium empties a long field slowly.)
    for (const it of ["file1", "file2"]) await paste(it, `""`);
}

/** The size of the output of a long run that begins with this. If it does not come, what the page shows is said, and
 * the run begins again. (In CI a browser has stalled once.) */
async function sizeOf(browser, command, beginning) {
    const size = `document.getElementById("size").textContent`;
    for (const time of ["first", "second"]) {
        await browser.type("command", command);
        if (await browser.until(`${size}.startsWith(${JSON.stringify(beginning)})`, 120)) break;
        const { status, messages } = await browser.value(RESULT);
        console.log(`no end, the ${time} time: ${command}: ${await browser.value(size)}; ${status}; ${messages}`);
        stalls++;
    }
    return browser.value(size);
}

/** A file is read in parts: neither it nor the output is in the memory of the page or of its worker. */
async function huge(browser) {
    fs.writeFileSync(`${room}/huge`, "");
    fs.truncateSync(`${room}/huge`, 10 ** 8);
    await choose(browser, "stdin-open", "huge");
    is("a file of 100 MB", await sizeOf(browser, "tr '\\0' x | cut -b 2", "2 bytes"), "2 bytes");
    is("100 MB of output", await sizeOf(browser, "tr '\\0' '\\n' | tr -d x", "100,000,000 bytes, of which"),
        "100,000,000 bytes, of which the first 65,536 are shown");
    const isOffered = `output?.size === 100000000 && document.getElementById("download").href.startsWith("blob:")`;
    is("all of it is offered", await browser.until(isOffered), true);
    await browser.value(`document.getElementById("stdin-empty").click()`);
    fs.rmSync(`${room}/huge`);
}

async function shared(browser) {
    const done = `document.getElementById("done").textContent`;
    const press = (id) => browser.value(`document.getElementById("${id}").click()`);
    await browser.send("Browser.grantPermissions", { permissions: ["clipboardReadWrite", "clipboardSanitizedWrite"] });
    for (const it of ["name1", "file1", "name2", "file2"]) await browser.type(it, "");
    await browser.type("stdin", "é=1&2\nb\n");
    await browser.type("command", "tr -d '+ #%' | cut -d = -f 2");
    is("before a link", await browser.until(`(${RESULT}).out === "1&2\\nb\\n"`), true);
    await press("link");
    is("a link", await browser.until(`${done} === "The link is copied."`), true);
    const linked = await browser.value("location.href");
    await browser.value(`document.querySelector("[data-example]").click()`);
    is("an example", await browser.until(`(${RESULT}).out === "root:0\\nbin:1\\n"`), true);
    await press("copy");
    is("a copy", await browser.until(`${done} === "The output is copied."`), true);
    await browser.value(`window.focus()`);
    const pasted = await browser.value("navigator.clipboard.readText().catch(String)");
    is("its text", pasted, await browser.value(`(${RESULT}).out`));
    await browser.value(`location.replace("#")`);
    await browser.value(`location.replace(${JSON.stringify(linked)})`);
    is("it is followed", await browser.until(`(${RESULT}).out === "1&2\\nb\\n"`), true);
    is("its fields", await browser.value(FIELDS), { command: "tr -d '+ #%' | cut -d = -f 2", stdin: "é=1&2\nb\n",
        name1: "", file1: "", name2: "", file2: "" });
    await browser.type("command", `tr ${"a".repeat(60000)} b`);
    await press("link");
    is("what is too long", await browser.value(done), "This is too long for a link.");
    is("the address stays", await browser.value("location.href"), linked);
}

/** A run at which the worker fails is told, and so is the one after it; and a worker with an error is replaced. */
async function failing(browser) {
    await browser.value(`{ const send = Worker.prototype.postMessage;
        Worker.prototype.postMessage = function (message, ...rest) {
            const tool = message.commands?.[0][0];
            const wrong = { uniq: { ...message, commands: [["uniq", 7]] }, comm: null };
            return send.call(this, tool in wrong ? wrong[tool] : message, ...rest);
        }; }`);
    await browser.type("command", "uniq");
    is("a run that fails", await browser.until(`(${RESULT}).status.startsWith("Failed")`), true);
    const failed = { status: "Failed: the module stopped", out: "",
        messages: "TypeError: words are a list of strings, as ['cut', '-f', '1']\n" };
    is("its result", await browser.value(RESULT), failed);
    await browser.type("command", "cut -q");
    is("a run after it", await browser.until(`(${RESULT}).status.startsWith("Status 2: ")`), true);
    await browser.type("command", "comm");
    const gone = { status: "Failed: the worker of this page does not run", out: "", messages: "" };
    is("a worker with an error", await browser.until(`(${RESULT}).status === "${gone.status}"`), true);
    is("what is shown then", await browser.value(RESULT), gone);
    await browser.type("command", "cut -q");
    is("another worker", await browser.until(`(${RESULT}).status.startsWith("Status 2: ")`), true);
}

/** Chooses a file. */
async function choose(browser, id, file) {
    const { root } = await browser.send("DOM.getDocument");
    const { nodeId } = await browser.send("DOM.querySelector", { nodeId: root.nodeId, selector: `#${id}` });
    await browser.send("DOM.setFileInputFiles", { files: [`${room}/${file}`], nodeId });
}

/** Chooses a file of bytes that are no text, and one that cannot be read. */
async function chosen(browser) {
    fs.writeFileSync(`${room}/bytes`, Buffer.from([0x61, 0xff, 0x0d, 0x0a]));
    const count = `document.getElementById("file1-open").files.length`;
    const held = `document.getElementById("file1-held").textContent`;
    for (const turn of ["Empty", "an example", "typing"]) {
        for (const it of ["name1", "file1", "name2", "file2", "stdin"]) await browser.type(it, "");
        await browser.type("command", "cut -b 1- bytes");
        is(`no file is chosen before: ${turn}`, await browser.value(count), 0);
        await choose(browser, "file1-open", "bytes");
        // (Until then the output is that of the turn before.)
        const isTaken = `${held} !== "" && (${RESULT}).out.startsWith("a\\\\xff")`;
        is("a file is taken", await browser.until(isTaken), true);
        is("its bytes", numbered(await browser.value(RESULT)), { status: 0, out: "a\\xff\\x0d\n", messages: "" });
        is("it is held", [await browser.value(held), await browser.value(count)],
            ["4 bytes, which cannot be edited here.", 1]);
        const button = turn === "an example" ? `querySelector("[data-example]")` : `getElementById("file1-empty")`;
        if (turn !== "typing") await browser.value(`document.${button}.click()`);
    }
    await browser.value(`document.getElementById("file1-empty").click()`);
    fs.writeFileSync(`${room}/bytes`, "€\r".repeat(600));
    await choose(browser, "file1-open", "bytes");
    const all = "2,400 bytes, which cannot be edited here.";
    is("all of many bytes is shown", await browser.until(`${held} === "${all}"`), true);
    await browser.value(`document.getElementById("file1-empty").click()`);
    fs.writeFileSync(`${room}/bytes`, "some text\n");
    await browser.value(`document.getElementById("file1-empty").click()`);
    await choose(browser, "file1-open", "bytes");
    is("a text is taken", await browser.until(`(${RESULT}).out === "some text\\n"`), true);
    await browser.type("file1", "another text");
    is("typing forgets the file", await browser.value(count), 0);
    await browser.value(`window.kept = Blob.prototype.arrayBuffer;
        Blob.prototype.arrayBuffer = async () => { throw new Error("too large"); }`);
    await choose(browser, "file1-open", "bytes");
    is("a file that cannot be read", await browser.until(`${held}.startsWith("bytes could not be read")`), true);
    is("nothing was changed", await browser.value(`[document.getElementById("file1").value, ${count}]`),
        ["another text", 0]);
    await browser.value(`Blob.prototype.arrayBuffer = window.kept`);
    await browser.value(`document.getElementById("file1-empty").click()`);
}

/** Drops a file onto a field, and one beside all fields. */
async function dropped(browser) {
    const drop = (selector, name, text) => browser.value(`{ const data = new DataTransfer();
        data.items.add(new File([${JSON.stringify(text)}], ${JSON.stringify(name)}));
        const how = { dataTransfer: data, bubbles: true, cancelable: true };
        const events = ["dragover", "drop"].map((it) => new DragEvent(it, how));
        for (const it of events) document.querySelector(${JSON.stringify(selector)}).dispatchEvent(it);
        events.every((it) => it.defaultPrevented) && !document.querySelector("[data-over]"); }`);
    for (const it of ["name1", "file1", "name2", "file2", "stdin"]) await browser.type(it, "");
    is("a file is dropped", await drop("#file2", "right", "a 2\n"), true);
    is("and one beside", await drop("h1", "left", "a 1\n"), true);
    await browser.type("command", "join - right");
    is("both are taken", await browser.until(`(${RESULT}).out === "a 1 2\\n"`), true);
    const text = `{ const data = new DataTransfer(), how = { dataTransfer: data, cancelable: true };
        data.setData("text/plain", "a");
        const event = new DragEvent("drop", how);
        document.dispatchEvent(event);
        event.defaultPrevented; }`;
    is("a text that is dropped is the browser's", await browser.value(text), false);
}

/** Walks from the command by the Tab key, and through the examples by arrows. */
async function walked(browser) {
    await browser.open(address);
    await browser.until(`document.getElementById("status").textContent.startsWith("Status")`);
    const focused = `(({ id, dataset, tagName }) => id || (dataset.example ? "example " + dataset.example : tagName))
        (document.activeElement)`;
    const walk = async (key, number, count) => {
        const found = [];
        for (let turn = 0; turn < count; turn++) {
            await browser.press(key, number);
            found.push(await browser.value(focused));
        }
        return found.join(" ");
    };
    await browser.value(`document.getElementById("command").focus()`);
    // (The tab stops of a browser's own, as at a file, are more than one here and there.)
    is("by Tab", await walk("Tab", 9, 15), "example 0 stdin stdin-open out download copy link messages name1 file1 "
        + "file1-open name2 file2 file2-open SUMMARY");
    await browser.value(`document.getElementById("command").focus()`);
    await walk("Tab", 9, 1);
    const firsts = (await browser.value(`Array.from(document.querySelectorAll("[data-example]:not([hidden])"),
        (it) => "example " + it.dataset.example).join(" ")`));
    is("by arrows", `example 0 ${await walk("ArrowRight", 39, 7)}`, `${firsts} more more`);
    is("back", await walk("ArrowLeft", 37, 1), firsts.split(" ").slice(-2).join(" "));
    is("to the first", await walk("Home", 36, 1), "example 0");
    is("to the last", await walk("End", 35, 1), "more");
    await browser.press("Enter", 13, "\r");
    is("all are shown", await browser.value(`document.querySelectorAll("[data-example][hidden]").length`), 0);
    await browser.press("Enter", 13, "\r");
    is("and few again", await browser.value(`document.querySelectorAll("[data-example]:not([hidden])").length`), 6);
    is("it stays the stop", await browser.value(`document.querySelector("#examples [tabindex='0']").id`), "more");
}

/** Shows how many bytes of many messages are shown. */
async function messages(browser) {
    const size = `document.getElementById("messages-size").textContent`;
    is("the size of few messages", await browser.value(size), "");
    const none = Array.from({ length: 300 }, (_, index) => `${"none".repeat(60)}${index}`);
    await browser.type("command", `cut -f 1 ${none.join(" ")}`);
    const all = none.map((it) => `cut: ${it}: cannot be opened\n`).join("");
    const wanted = `${all.length.toLocaleString("en")} bytes, of which the first 65,536 are shown. `;
    is("many messages", await browser.until(`${size} === ${JSON.stringify(wanted)}`), true);
    is("those that are shown", (await browser.value(RESULT)).messages, all.slice(0, 65536));
}

/** Each control has a name, and so has each region that takes the focus. */
async function names(browser) {
    const { nodes } = await browser.send("Accessibility.getFullAXTree");
    const roles = ["textbox", "button", "link", "region", "status"];
    const found = nodes.filter((it) => !it.ignored && roles.includes(it.role?.value));
    is("controls", found.length > 40, true);
    const lacking = found.filter((it) => it.role.value !== "status" && !it.name?.value);
    is("controls without a name", lacking.map((it) => it.role.value), []);
}

async function narrow(browser) {
    const phone = { width: 360, height: 740, deviceScaleFactor: 2, mobile: true };
    await browser.send("Emulation.setDeviceMetricsOverride", phone);
    await browser.value("scrollTo(0, 0)");
    is("on a phone nothing is cut off", await browser.value("document.documentElement.scrollWidth"), 360);
    await browser.value(`document.querySelector("#examples.all") && document.getElementById("more").click()`);
    const bottom = (id) => browser.value(`document.getElementById("${id}").getBoundingClientRect().bottom`);
    is("examples can be seen at once", await bottom("examples") < 320, true);
    is("and the output", await bottom("out") < phone.height, true);
    const small = `Array.from(document.querySelectorAll("a, button, input, summary, textarea"))
        .filter((it) => it.offsetParent).map((it) => [it.id, it.getBoundingClientRect()])
        .filter(([, it]) => it.width < 24 || it.height < 24).map(([id]) => id)`;
    is("what is touched has 24 pixels", await browser.value(small), []);
    await browser.send("Emulation.clearDeviceMetricsOverride");
    const colors = async (scheme) => {
        const features = [{ name: "prefers-color-scheme", value: scheme }];
        await browser.send("Emulation.setEmulatedMedia", { features });
        return browser.value("getComputedStyle(document.body).backgroundColor");
    };
    is("dark", await colors("dark"), "rgb(22, 22, 22)");
    is("light", await colors("light"), "rgb(255, 255, 255)");
}

async function pictured(browser) {
    const size = { width: 900, height: 880, deviceScaleFactor: 1, mobile: false };
    await browser.send("Emulation.setDeviceMetricsOverride", size);
    await browser.value(`document.querySelectorAll("[data-example]")[10].click()`);
    await browser.until(`document.getElementById("status").textContent.startsWith("Status")`);
    await browser.value("scrollTo(0, 0)");
    const { data } = await browser.send("Page.captureScreenshot", { format: "png" });
    fs.writeFileSync(picture, Buffer.from(data, "base64"));
}

async function main() {
    browser = new Browser(chromium, room);
    await browser.open(address);
    await typed(browser);
    await clicked(browser);
    await names(browser);
    await narrow(browser);
    if (picture) await pictured(browser);
    await chosen(browser);
    await dropped(browser);
    await messages(browser);
    await large(browser);
    await huge(browser);
    await shared(browser);
    await failing(browser);
    await walked(browser);
    const requests = browser.events.filter((it) => it.method === "Network.requestWillBeSent");
    const asked = requests.map((it) => it.params.request.url);
    const isOther = (it) => it.replace(/#.*/, "") !== address && !/^(blob|data):/.test(it);
    is("requests beside the page", asked.filter(isOther), []);
    const thrown = browser.events.filter((it) => it.method === "Runtime.exceptionThrown");
    is("errors", thrown.map((it) => it.params.exceptionDetails.exception?.description), []);
    await browser.open(address, `WebAssembly.compile = async () => { throw new WebAssembly.CompileError(""); }`);
    is("no memories with 64-bit addresses", await browser.until(`!document.getElementById("lacks").hidden`), true);
    const lacks = await browser.value(`document.getElementById("lacks").textContent`);
    is("it says so", lacks.includes("64-bit addresses"), true);
    await browser.close();
    const stalled = stalls ? `, and ${stalls} runs stalled` : "";
    console.log(`${counts.tests} tests in Chromium: ${counts.failed} failed${stalled}`);
}

/** Ends the browser and removes all files. */
function end(status) {
    browser?.child.kill("SIGKILL");
    fs.rmSync(room, { recursive: true, force: true, maxRetries: 5 });
    process.exit(status);
}

for (const it of ["SIGTERM", "SIGINT", "SIGHUP"]) process.on(it, () => end(1));
main().catch((error) => {
    console.log(`FAILED: ${error.stack}`);
    counts.failed++;
}).finally(() => end(counts.failed ? 1 : 0));
