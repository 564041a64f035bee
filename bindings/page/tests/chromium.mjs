// Chromium, as tests use it.
import { spawn } from "node:child_process";

/** Chromium without a window, to which messages go by a pipe, as the protocol of its developer tools has them. */
export class Browser {
    /** Starts the program `chromium`, whose files go to a folder in `room`. */
    constructor(chromium, room) {
        const all = ["--headless=new", "--no-sandbox", "--disable-gpu", "--disable-dev-shm-usage", "--no-first-run",
            "--disable-background-networking", "--remote-debugging-pipe", `--user-data-dir=${room}/profile`];
        this.child = spawn(chromium, all, { stdio: ["ignore", "ignore", "ignore", "pipe", "pipe"] });
        [this.number, this.waiting, this.events, this.heard] = [0, new Map(), [], ""];
        this.child.stdio[4].on("data", (text) => this.hear(String(text)));
    }

    hear(text) {
        this.heard += text;
        const messages = this.heard.split("\0");
        this.heard = messages.pop();
        for (const it of messages.map((message) => JSON.parse(message))) {
            if (it.id === undefined) this.events.push(it);
            else if (it.error) this.waiting.get(it.id)[1](new Error(it.error.message));
            else this.waiting.get(it.id)[0](it.result);
        }
    }

    send(method, params = {}) {
        const id = ++this.number;
        this.child.stdio[3].write(`${JSON.stringify({ id, method, params, sessionId: this.session })}\0`);
        return new Promise((good, bad) => this.waiting.set(id, [good, bad]));
    }

    /** Opens a page. The script runs in it before its own. */
    async open(url, script = "") {
        this.session = undefined;
        const { targetId } = await this.send("Target.createTarget", { url: "about:blank" });
        this.session = (await this.send("Target.attachToTarget", { targetId, flatten: true })).sessionId;
        for (const it of ["Page", "Runtime", "Network", "Log"]) await this.send(`${it}.enable`);
        if (script) await this.send("Page.addScriptToEvaluateOnNewDocument", { source: script });
        await this.send("Page.navigate", { url });
    }

    /** The value of an expression in the page. */
    async value(expression) {
        const did = await this.send("Runtime.evaluate", { expression, awaitPromise: true, returnByValue: true });
        if (did.exceptionDetails) throw new Error(did.exceptionDetails.exception.description);
        return did.result.value;
    }

    /** Waits until an expression is true. Returns whether it was, within about this time. (The clock goes on if a
     * machine is stopped for a while: so turns are counted.) */
    async until(expression, seconds = 20) {
        for (let turn = 0; turn < 50 * seconds; turn++) {
            if (await this.value(expression).catch(() => false)) return true;
            await new Promise((after) => setTimeout(after, 20));
        }
        return false;
    }

    /** Presses a key, which has this name and this number. */
    async press(key, number, text) {
        const event = { key, code: key, windowsVirtualKeyCode: number };
        await this.send("Input.dispatchKeyEvent", { type: "keyDown", text, ...event });
        await this.send("Input.dispatchKeyEvent", { type: "keyUp", ...event });
    }

    /** Types a text into a field, in the place of what is there. */
    async type(id, text) {
        await this.value(`document.getElementById("${id}").focus(); document.getElementById("${id}").select()`);
        if (text) await this.send("Input.insertText", { text });
        else await this.press("Delete", 46);
    }

    async close() {
        this.session = undefined;
        const ended = new Promise((after) => this.child.on("exit", after));
        await this.send("Browser.close");
        await ended;
    }
}
