// The part that tests of a page in browsers share: what the page shows, and what the program gives for its fields.
import { spawnSync } from "node:child_process";
import fs from "node:fs";
import os from "node:os";
import path from "node:path";

export const room = fs.mkdtempSync(path.join(os.tmpdir(), "ptext-page-"));
export const counts = { tests: 0, failed: 0 };

export function is(what, found, wanted) {
    counts.tests++;
    const [one, two] = [found, wanted].map((it) => JSON.stringify(it) ?? "nothing");
    if (one !== two) {
        counts.failed++;
        console.log(`FAILED: ${what}\nwanted: ${two.slice(0, 300)}\nfound:  ${one.slice(0, 300)}`);
    }
}

// The texts that the page shows. Escapes are shown, too: so these inputs have none.
export const RESULT = `Object.fromEntries(["status", "out", "messages"]
    .map((id) => [id, document.getElementById(id).textContent]))`;
export const FIELDS = `Object.fromEntries(["command", "stdin", "name1", "file1", "name2", "file2"]
    .map((id) => [id, document.getElementById(id).value]))`;

/** The results of the program for what the fields hold, by a shell. */
export function byProgram(fields, program) {
    const folder = fs.mkdtempSync(`${room}/here-`);
    fs.mkdirSync(`${folder}/bin`);
    for (const tool of ["cut", "paste", "join", "comm", "uniq", "tr"]) {
        const text = `#!/bin/sh\nexec '${path.resolve(program)}' ${tool} "$@"\n`;
        fs.writeFileSync(`${folder}/bin/${tool}`, text, { mode: 0o755 });
    }
    fs.mkdirSync(`${folder}/files`);
    for (const it of [1, 2]) {
        if (fields[`name${it}`]) fs.writeFileSync(`${folder}/files/${fields[`name${it}`]}`, fields[`file${it}`]);
    }
    const before = fs.readdirSync(`${folder}/files`);
    const environment = { ...process.env, PATH: `${folder}/bin:${process.env.PATH}` };
    const how = { cwd: `${folder}/files`, input: fields.stdin, env: environment, encoding: "utf8" };
    const did = spawnSync("sh", ["-c", fields.command], how);
    // (The output of `uniq` may be in a file.)
    const made = fs.readdirSync(`${folder}/files`).filter((it) => !before.includes(it));
    const out = made.length ? fs.readFileSync(`${folder}/files/${made[0]}`, "utf8") : did.stdout;
    return { status: did.status, out, messages: did.stderr };
}

export const numbered = ({ status, ...rest }) => ({ status: Number(/^Status (\d)/.exec(status)?.[1] ?? -1), ...rest });
