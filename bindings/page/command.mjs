// A command as one types it: words with quotes, and several commands with `|` between them.
import { joined } from "./ptext.mjs";

/** A command that is not taken. Its message says why. */
export class Refused extends Error {}

/** The tools, as they are named in messages. */
const TOOLS = ["cut", "paste", "join", "comm", "uniq", "tr"];

/** Refuses a character with which a shell would do something that this page does not. */
function refuse(character) {
    const advice = `if it is meant as it is, write '${character}'`;
    throw new Refused(`this page does not do what ${character} means in a shell: ${advice}`);
}

/** Whether a shell would put something in the place of what begins here with $. */
const isExpanded = (text, at) => /^\$[\w({@*#?$!'"-]/.test(text.slice(at, at + 2));

/** Reads from a quote to the one that ends it. Returns the text between them, and the index after the second one. */
function quoted(text, begin) {
    const quote = text[begin];
    let found = "", at = begin + 1;
    while (at < text.length && text[at] !== quote) {
        const isSpecial = quote === '"' && (text[at] === "`" || (isExpanded(text, at) && !`'"`.includes(text[at + 1])));
        if (isSpecial) refuse(text[at]);
        if (quote === '"' && text[at] === "\\" && '$`"\\'.includes(text[at + 1] ?? " ")) at++;
        found += text[at++];
    }
    if (at >= text.length) throw new Refused(`the quote ${quote} is not closed`);
    return [found, at + 1];
}

/** Splits a text as a shell does. Returns the words of each command, in the order of the commands. */
export function commands(text) {
    const found = [[]];
    let word = null, at = 0;
    const end = () => {
        if (word !== null) found.at(-1).push(word);
        word = null;
    };
    while (at < text.length) {
        const it = text[at];
        if (it === "'" || it === '"') {
            const [part, after] = quoted(text, at);
            [word, at] = [(word ?? "") + part, after];
            continue;
        }
        if (" \t\n".includes(it)) end();
        else if (it === "|") {
            end();
            const isLacking = !found.at(-1).length || text[at + 1] === "|";
            if (isLacking) throw new Refused("a command is lacking before or after |");
            found.push([]);
        } else if ("`<>&;()".includes(it) || isExpanded(text, at)) refuse(it);
        else if ("#~".includes(it) && word === null) refuse(it);
        else if ("*?".includes(it)) {
            throw new Refused(`this page knows no patterns of names: if ${it} is meant as it is, write '${it}'`);
        }
        else if (it === "\\") {
            if (++at >= text.length) throw new Refused("a character is lacking after \\");
            word = (word ?? "") + text[at];
        } else word = (word ?? "") + it;
        at++;
    }
    end();
    if (found.length > 1 && !found.at(-1).length) throw new Refused("a command is lacking after |");
    return found.map((words) => (words[0] === "ptext" ? words.slice(1) : words));
}

/** Refuses commands of which one is none of the tools. */
export function checkTools(all) {
    const other = all.map((words) => words[0]).find((it) => it !== undefined && !TOOLS.includes(it));
    if (other !== undefined) throw new Refused(`${other} is not in this page, which has ${TOOLS.join(", ")}`);
}

/**
 * Runs commands, each over the output of the one before it. The function `run` runs one: it gets its words, its
 * standard input, its files by their names, and whether it is the last, and returns its status, its messages, its
 * output, and the name of the file to which that goes (or null). Returns the same of the last one, with the statuses
 * and the messages of all.
 */
export function runAll(run, all, stdin, files) {
    const known = new Map(files), messages = [], statuses = [];
    let input = stdin, last = null;
    for (const words of all) {
        last = run(words, input, known, statuses.length === all.length - 1);
        messages.push(last.messages);
        statuses.push(last.status);
        if (last.output !== null) known.set(last.output, last.out);
        input = last.output === null ? last.out : "";
    }
    return { ...last, statuses, messages: joined(messages) };
}
