// How calls of the package refuse what they are given, and fail.

/** A command has ended with a status that is not 0. */
export class PtextError extends Error {
    constructor(status, messages, out, unknown) {
        const lacking = unknown.map((it) => JSON.stringify(it)).join(", ");
        super(messages.trimEnd() + (lacking && ` (\`files\` has no ${lacking}: no file is opened by its name)`));
        Object.assign(this, { name: "PtextError", status, messages, out, unknown });
    }
}

/** Throws what a status other than 0 means. */
export function checkStatus({ status, messages, read }, files, out) {
    if (!status) return;
    const unknown = status === 1 ? [...new Set(read)].filter((name) => (files.get(name) ?? null) === null) : [];
    throw new PtextError(status, new TextDecoder().decode(messages), out, unknown);
}

/** Throws unless all options have these names, and `memory` is a limit. */
export function checkOptions(options, known) {
    const other = Object.keys(options).find((it) => !known.includes(it));
    if (other !== undefined) throw new TypeError(`there is no option ${other}: the options are ${known.join(", ")}`);
    const { memory } = options;
    if (memory !== undefined && !(typeof memory === "number" && memory >= 0)) {
        throw new TypeError("memory has to be a number of bytes");
    }
}

/** Files by their names. (An object has names of its own kind, as `constructor`, which are no files.) */
export function mapOf(files) {
    if (typeof files !== "object" || files === null) {
        throw new TypeError("files has to be an object or a Map, with inputs by their names");
    }
    return files instanceof Map ? files : new Map(Object.entries(files));
}
