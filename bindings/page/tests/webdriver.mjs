// Firefox and WebKitGTK, as tests use them: by the commands of WebDriver.
import { spawn } from "node:child_process";
import fs from "node:fs";
import net from "node:net";
import { room } from "./shown.mjs";

/** The key of an element in the protocol of WebDriver. */
const ELEMENT = "element-6066-11e4-a52e-4f735466cecf";
/** The browser of Debian's packages of WebKitGTK, and the number of the display that it gets. */
const BROWSER = "/usr/lib/x86_64-linux-gnu/webkit2gtk-4.1/MiniBrowser";
const display = 90 + (process.pid % 900), children = [];

/** Starts a program, which `endAll` ends. */
function start(...words) {
    const environment = { ...process.env, HOME: room, DISPLAY: `:${display}` };
    children.push(spawn(words[0], words.slice(1), { stdio: "ignore", env: environment, detached: true }));
}

/** Ends all that was started. */
export function endAll() {
    for (const it of children) {
        try {
            process.kill(-it.pid, "SIGKILL");
        } catch {
            // (It has ended.)
        }
    }
}

const pause = (time) => new Promise((after) => setTimeout(after, time));

/** Calls a function until it gives something, for about this time. (If a machine is stopped for a while, its clock goes
 * on: so turns are counted.) */
export async function until(call, seconds = 60) {
    for (let turn = 0; turn < 20 * seconds; turn++, await pause(50)) {
        const found = await Promise.resolve().then(call).catch(() => null);
        if (found) return found;
    }
    throw new Error(`waited in vain: ${call}`);
}

/** Firefox, by Marionette: commands of WebDriver over TCP, each with its length before it. */
export class Firefox {
    #heard = Buffer.alloc(0);
    #waiting = new Map();

    async begin() {
        const profile = `${room}/firefox`;
        fs.mkdirSync(profile);
        fs.writeFileSync(`${profile}/user.js`, 'user_pref("marionette.port", 0);\n');
        start("firefox-esr", "--headless", "--marionette", "--no-remote", "--profile", profile);
        const port = await until(() => Number(fs.readFileSync(`${profile}/MarionetteActivePort`, "utf8")));
        this.socket = net.connect(port, "127.0.0.1").on("data", (bytes) => this.#hear(bytes));
        await this.send("NewSession", {});
    }

    #hear(bytes) {
        this.#heard = Buffer.concat([this.#heard, bytes]);
        for (let colon; (colon = this.#heard.indexOf(":")) >= 0; ) {
            const end = colon + 1 + Number(this.#heard.subarray(0, colon));
            if (this.#heard.length < end) return;
            const [, number, error, result] = [].concat(JSON.parse(this.#heard.subarray(colon + 1, end)));
            this.#heard = this.#heard.subarray(end);
            this.#waiting.get(number)?.(error ? Promise.reject(new Error(error.message)) : result);
        }
    }

    send(command, given) {
        const number = this.#waiting.size + 1;
        const text = JSON.stringify([0, number, `WebDriver:${command}`, given]);
        return new Promise((good) => {
            this.#waiting.set(number, good);
            this.socket.write(`${Buffer.byteLength(text)}:${text}`);
        });
    }

    open(url) {
        return this.send("Navigate", { url });
    }

    async value(expression) {
        return (await this.send("ExecuteScript", { script: `return ${expression}`, args: [] })).value;
    }

    async choose(id, file) {
        const { value } = await this.send("FindElement", { using: "css selector", value: `#${id}` });
        await this.send("ElementSendKeys", { id: value[ELEMENT], text: file });
    }
}

/** WebKitGTK, by its driver: commands of WebDriver over HTTP. */
export class WebKit {
    async begin() {
        const port = 20000 + (process.pid % 20000);
        start("Xvfb", `:${display}`, "-screen", "0", "1000x900x24");
        start("WebKitWebDriver", `--port=${port}`);
        this.session = `http://127.0.0.1:${port}`;
        const browser = { binary: BROWSER, args: ["--automation"] };
        const given = { capabilities: { alwaysMatch: { "webkitgtk:browserOptions": browser } } };
        const { sessionId } = await until(() => this.send("session", given));
        this.session += `/session/${sessionId}`;
    }

    async send(command, given) {
        const did = await fetch(`${this.session}/${command}`, { method: "POST", body: JSON.stringify(given) });
        const { value } = await did.json();
        if (!did.ok) throw new Error(value.message);
        return value;
    }

    open(url) {
        return this.send("url", { url });
    }

    value(expression) {
        return this.send("execute/sync", { script: `return ${expression}`, args: [] });
    }

    async choose(id, file) {
        const found = await this.send("element", { using: "css selector", value: `#${id}` });
        await this.send(`element/${found[ELEMENT]}/value`, { text: file });
    }
}
