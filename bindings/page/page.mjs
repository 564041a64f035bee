// The page: takes what is typed, has the worker run it, and shows what comes out.
import { Refused, checkTools, commands } from "./command.mjs";
import { firstOf, shown } from "./shown.mjs";

const at = (id) => document.getElementById(id);
const textOf = (id) => at(id).textContent;
const FIELDS = ["command", "stdin", "name1", "file1", "name2", "file2"];
const INPUTS = ["stdin", "file1", "file2"];
/** How many bytes of the output are shown, and how long a text can be that is edited in a field. */
const SHOWN = 65536, EDITED = 100_000;
/** How much of an input is shown that cannot be edited. */
const BEGINNING = 2000;
const CUT = `, of which the first ${SHOWN.toLocaleString("en")} are shown`;
const LACKS = "This browser cannot run the module, which needs memories with 64-bit addresses in WebAssembly "
    + "(Chromium and Chrome have them since version 133, Firefox since 134).";
const STATUSES = {
    0: "everything was written",
    1: "a file could not be opened, or a line is out of order",
    2: "the command is wrong, and nothing was read",
    4: "memory ran out: the output is a beginning of the whole",
};
/** The differences if commands are chained. */
const OF_LAST = { ...STATUSES, 0: "the output of the last command was written", 2: "the last command is wrong" };

/** How long the part of a link after # may be, and how many bytes of the output are copied. */
const LINKED = 50_000, COPIED = 10_000_000;
const NOTHING = new Uint8Array(0);

/** The inputs that no field can hold, as a text or as a file: long ones, and those that are not UTF-8. */
const held = new Map();
let compiled = null, worker = null, number = 0, isRunning = false, waiting = 0, patience = 0, address = "", place = "";
/** The output that is shown, if all of it is there, and the last part of the address that this page has made itself. */
let output = null, linked = "";

/** Makes a worker from the scripts of this page. (Their place is kept: a run that is stopped may have left no room.) */
function newWorker() {
    place ||= URL.createObjectURL(new Blob([textOf("library"), textOf("worker")], { type: "text/javascript" }));
    const made = new Worker(place);
    made.onmessage = ({ data }) => {
        if (data.number !== number) return;
        if (data.part) showPart(data.part);
        else if (data.whole) offer(data.whole);
        else finish(data);
    };
    made.onerror = () => {
        made.terminate();
        if (made !== worker) return;
        // (The next run gets another one.)
        worker = null;
        settle();
        show({});
        say("Failed", "the worker of this page does not run");
    };
    made.postMessage({ module: compiled });
    return made;
}

// ---- inputs

const inputOf = (id) => held.get(id) ?? at(id).value;
const sizeOf = (input) => input.size ?? input.length;

/** Empties an input, so that it can be edited. */
function empty(id) {
    held.delete(id);
    at(id).value = "";
    at(id).readOnly = false;
    at(`${id}-held`).textContent = "";
    at(`${id}-empty`).hidden = true;
}

/** Shows no name of a chosen file any more, so that the same file can be chosen again. */
function forget(id) {
    at(`${id}-open`).value = "";
}

const counted = (count, unit) => `${count.toLocaleString("en")} ${unit}${count === 1 ? "" : "s"}`;

const isEdited = (text) => text.length <= EDITED && !/[\0\r]/.test(text);

/** Holds an input for which there is no field: it shows its beginning, and cannot be edited. */
function hold(id, given, beginning, isLong) {
    held.set(id, given);
    at(id).value = beginning;
    at(id).readOnly = true;
    const what = isLong ? "of which the beginning is shown" : "which cannot be edited here";
    at(`${id}-held`).textContent = `${counted(sizeOf(given), given instanceof Blob ? "byte" : "character")}, ${what}.`;
    at(`${id}-empty`).hidden = false;
}

/** Sets an input to a text. */
function setText(id, text) {
    empty(id);
    if (isEdited(text)) at(id).value = text;
    else hold(id, text, text.slice(0, BEGINNING), text.length > BEGINNING);
}

/** Sets an input to a file, of which only the first bytes are read now. */
function setFile(id, file, bytes) {
    empty(id);
    const text = file.size <= EDITED ? decoded(bytes) : null;
    if (text !== null && isEdited(text)) at(id).value = text;
    else if (text !== null) hold(id, file, text.slice(0, BEGINNING), text.length > BEGINNING);
    else hold(id, file, shown(firstOf(bytes, BEGINNING)).map((it) => it.text).join(""), file.size > BEGINNING);
}

/** The text of these bytes, or null if they are not UTF-8. */
function decoded(bytes) {
    try {
        return new TextDecoder("utf-8", { fatal: true, ignoreBOM: true }).decode(bytes);
    } catch {
        return null;
    }
}

/** Takes a long text that is pasted. (A field would take a minute for a million lines.) */
function paste(event) {
    const text = event.clipboardData.getData("text/plain"), field = event.target;
    if (field.readOnly || text.length <= EDITED) return;
    event.preventDefault();
    const { value, selectionStart, selectionEnd } = field;
    const pasted = text.replaceAll("\r\n", "\n");
    setText(field.id, value.slice(0, selectionStart) + pasted + value.slice(selectionEnd));
    forget(field.id);
    change();
}

/** Takes a file that was chosen. */
async function open(id, chosen) {
    if (!chosen) return;
    let bytes = null;
    try {
        bytes = new Uint8Array(await chosen.slice(0, EDITED).arrayBuffer());
    } catch (error) {
        at(`${id}-held`).textContent = `${chosen.name} could not be read, and nothing was changed: ${error.message}`;
        forget(id);
        return;
    }
    setFile(id, chosen, bytes);
    const name = at(id.replace("file", "name"));
    if (id !== "stdin" && name.value === "") name.value = chosen.name;
    change();
}

// ---- runs

/** Waits no longer for a run. */
function settle() {
    clearTimeout(patience);
    isRunning = false;
    at("stop").hidden = true;
}

/** Ends a run that has not ended. */
function abandon() {
    if (isRunning) {
        worker.terminate();
        worker = newWorker();
    }
    settle();
}

/** Runs what the fields hold. */
function run() {
    abandon();
    number++;
    const files = [1, 2].map((it) => [at(`name${it}`).value, inputOf(`file${it}`)]).filter(([name]) => name !== "");
    const isTaken = files.length === 2 && files[0][0] === files[1][0];
    at("same").textContent = isTaken ? "File 1 has this name, too: only file 2 is there." : "";
    try {
        const all = commands(at("command").value);
        checkTools(all);
        worker ??= newWorker();
        isRunning = true;
        worker.postMessage({ number, commands: all, stdin: inputOf("stdin"), files });
        patience = setTimeout(() => {
            say("Running…", "");
            at("stop").hidden = false;
        }, 400);
    } catch (error) {
        if (!(error instanceof Refused)) throw error;
        show({});
        say("Not run", error.message);
    }
}

function stop() {
    abandon();
    number++;
    show({});
    say("Stopped", "");
}

// ---- results

/** Shows the result of a run. */
function finish(data) {
    settle();
    if (data.error?.startsWith("NotReadableError") && [...held.values()].some((it) => it instanceof Blob)) {
        readFiles();
        return;
    }
    if (data.error) {
        show({ messages: new TextEncoder().encode(`${data.error}\n`) });
        say("Failed", "the module stopped");
        return;
    }
    show(data);
    say(`Status ${data.status}`, meaningOf(data.statuses));
}

/** Reads the files that the worker cannot read, and runs again. (In WebKit that is so if the page is from a folder.) */
async function readFiles() {
    const own = number;
    try {
        for (const [id, it] of held) if (it instanceof Blob) held.set(id, new Uint8Array(await it.arrayBuffer()));
        if (number === own) run();
    } catch (error) {
        show({ messages: new TextEncoder().encode(`${error}\n`) });
        say("Failed", "a file could not be read");
    }
}

/** Describes the statuses of chained commands. */
function meaningOf(statuses) {
    const last = statuses.at(-1), earlier = statuses.slice(0, -1).find((it) => it !== 0);
    const meaning = (statuses.length > 1 ? OF_LAST : STATUSES)[last];
    return earlier ? `${meaning}, but a command before it ended with status ${earlier}` : meaning;
}

function say(status, meaning) {
    const text = meaning ? `${status}: ${meaning}` : status;
    if (at("status").textContent !== text) at("status").textContent = text;
}

/** Shows the beginning of an output that is not all there. */
function showPart({ first, size }) {
    if (first) fill("out", first);
    at("size").textContent = `${counted(size, "byte")} so far`;
}

/** Shows the output and the messages. A long output comes afterwards. */
function show({ first = NOTHING, size = first.length, messages = NOTHING, output: file = null }) {
    fill("out", first);
    at("size").textContent = counted(size, "byte") + (size > SHOWN ? CUT : "");
    const isCut = fill("messages", messages);
    at("messages-size").textContent = isCut ? `${counted(messages.length, "byte")}${CUT}. ` : "";
    at("where").textContent = file === null ? "" : `to the file ${file}`;
    at("download").download = file ?? "output.txt";
    offer(first.length < size ? null : new Blob([first]));
}

/** Offers the whole output as a file, or nothing as long as it is not there. */
function offer(whole) {
    output = whole;
    URL.revokeObjectURL(address);
    if (whole) at("download").href = address = URL.createObjectURL(whole);
    else at("download").removeAttribute("href");
    at("copy").disabled = !whole;
}

/** Fills an element with bytes as text and escapes. Returns whether there are too many to show. */
function fill(id, bytes) {
    const first = firstOf(bytes, SHOWN);
    at(id).replaceChildren(...shown(first).map(({ isText, text }) => {
        if (isText) return text;
        const escapes = document.createElement("span");
        escapes.className = "escapes";
        escapes.textContent = text;
        return escapes;
    }));
    return first.length < bytes.length;
}

// ---- what a person does

/** Runs soon, unless more is typed before. */
function change() {
    clearTimeout(waiting);
    at("done").textContent = "";
    const size = INPUTS.reduce((sum, it) => sum + sizeOf(inputOf(it)), 0);
    waiting = setTimeout(run, size > 1_000_000 ? 500 : 80);
}

function take(example) {
    for (const it of INPUTS) {
        empty(it);
        forget(it);
    }
    for (const it of FIELDS) {
        if (INPUTS.includes(it)) setText(it, example[it] ?? "");
        else at(it).value = example[it] ?? "";
    }
    at("done").textContent = "";
    clearTimeout(waiting);
    run();
}

// ---- examples: one for each tool, or all. They are one stop of the Tab key, and arrows go from one to the next.

const shownExamples = () => [...at("examples").querySelectorAll("button")].filter((it) => !it.hidden);

/** Shows all examples, or one for each tool. */
function showMore() {
    const isAll = at("examples").classList.toggle("all");
    for (const it of document.querySelectorAll(".rest")) it.hidden = !isAll;
    at("more").textContent = isAll ? "Fewer" : "More";
    at("more").setAttribute("aria-expanded", isAll);
    // (In Safari a click gives a button no focus. It becomes the stop, since that may be hidden now.)
    at("more").focus();
}

function move(event) {
    const all = shownExamples(), index = all.indexOf(event.target), last = all.length - 1;
    const to = {
        ArrowRight: index + 1, ArrowDown: index + 1, ArrowLeft: index - 1, ArrowUp: index - 1, Home: 0, End: last,
    }[event.key];
    if (to === undefined) return;
    event.preventDefault();
    all[Math.min(Math.max(to, 0), last)].focus();
}

/** Makes the button that has the focus the one to which Tab comes back. */
function stopAt(event) {
    for (const it of at("examples").querySelectorAll("button")) it.tabIndex = it === event.target ? 0 : -1;
}

// ---- files that are dropped

/** The section over which something is dragged, if it is a file. (Elsewhere it is standard input.) */
function sectionOf(event) {
    if (!event.dataTransfer.types.includes("Files")) return null;
    return event.target.closest?.("[data-input]") ?? document.querySelector("[data-input]");
}

function drag(event) {
    const section = sectionOf(event);
    for (const it of document.querySelectorAll("[data-over]")) if (it !== section) delete it.dataset.over;
    if (!section) return;
    event.preventDefault();
    section.dataset.over = "yes";
}

function drop(event) {
    const section = sectionOf(event);
    if (!section) return;
    event.preventDefault();
    delete section.dataset.over;
    forget(section.dataset.input);
    open(section.dataset.input, event.dataTransfer.files[0]);
}

// ---- texts that are copied

/** Puts a text into the clipboard, and says what was done. */
async function copy(text, what) {
    try {
        await navigator.clipboard.writeText(text);
    } catch {
        // (Some browsers have no clipboard for a page from a folder.)
        const field = document.createElement("textarea");
        field.value = text;
        document.body.append(field);
        field.select();
        const isCopied = document.execCommand("copy");
        field.remove();
        if (!isCopied) {
            at("done").textContent = "This browser does not let the page copy.";
            return;
        }
    }
    at("done").textContent = what;
}

/** Puts the command and the inputs into the address of the page, and copies it. */
function link() {
    const fields = FIELDS.filter((it) => at(it).value && !held.has(it));
    const text = String(new URLSearchParams(fields.map((it) => [it, at(it).value])));
    if (text.length > LINKED) {
        at("done").textContent = "This is too long for a link.";
        return;
    }
    linked = `#${text}`;
    location.replace(linked);
    copy(location.href, `The link is copied${held.size ? ", without the inputs that cannot be edited" : ""}.`);
}

/** Fills the fields from the address of the page. Returns whether it has a command. */
function follow() {
    const given = Object.fromEntries(new URLSearchParams(location.hash.slice(1)));
    if (given.command === undefined) return false;
    take(given);
    return true;
}

async function begin() {
    const bytes = Uint8Array.from(atob(textOf("module")), (it) => it.charCodeAt(0));
    try {
        compiled = await WebAssembly.compile(bytes);
        worker = newWorker();
    } catch (error) {
        at("lacks").textContent = error instanceof WebAssembly.CompileError ? LACKS : String(error);
        at("lacks").hidden = false;
        return;
    }
    const examples = JSON.parse(textOf("fields"));
    for (const it of FIELDS) at(it).addEventListener("input", change);
    for (const it of INPUTS) {
        at(it).addEventListener("paste", paste);
        at(it).addEventListener("input", () => forget(it));
        at(`${it}-open`).addEventListener("change", (event) => open(it, event.target.files[0]));
        at(`${it}-empty`).addEventListener("click", () => {
            empty(it);
            forget(it);
            at(it).focus();
            change();
        });
    }
    at("stop").addEventListener("click", stop);
    addEventListener("keydown", (event) => {
        if (event.key === "Escape" && isRunning) stop();
    });
    for (const it of ["dragover", "dragleave"]) document.addEventListener(it, drag);
    document.addEventListener("drop", drop);
    at("more").addEventListener("click", showMore);
    at("examples").addEventListener("keydown", move);
    at("examples").addEventListener("focusin", stopAt);
    at("link").addEventListener("click", link);
    at("copy").addEventListener("click", async () => {
        const part = output.size > COPIED ? `The first ${COPIED.toLocaleString("en")} bytes` : "The output";
        copy(await output.slice(0, COPIED).text(), `${part} ${output.size > COPIED ? "are" : "is"} copied.`);
    });
    addEventListener("hashchange", () => {
        const isOwn = location.hash === linked;
        linked = "";
        if (!isOwn) follow();
    });
    for (const it of document.querySelectorAll("[data-example]")) {
        it.addEventListener("click", () => {
            take(examples[it.dataset.example]);
            at("command").focus();
        });
    }
    document.body.dataset.ready = "yes";
    // (A browser may fill the fields with what was there before.)
    if (follow()) return;
    if (at("command").value) run();
    else take(examples[0]);
}

begin();
