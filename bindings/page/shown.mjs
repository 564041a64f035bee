// Bytes as a page shows them.

/** Text that is shown as it is: characters of UTF-8, without those that cannot be seen. */
const TEXT = [
    "[\\t\\n\\x20-\\x7e]", "\\xc2[\\xa0-\\xbf]", "[\\xc3-\\xdf][\\x80-\\xbf]", "\\xe0[\\xa0-\\xbf][\\x80-\\xbf]",
    "[\\xe1-\\xec\\xee\\xef][\\x80-\\xbf]{2}", "\\xed[\\x80-\\x9f][\\x80-\\xbf]", "\\xf0[\\x90-\\xbf][\\x80-\\xbf]{2}",
    "[\\xf1-\\xf3][\\x80-\\xbf]{3}", "\\xf4[\\x80-\\x8f][\\x80-\\xbf]{2}",
].join("|");

const decode = (bytes) => new TextDecoder("utf-8", { ignoreBOM: true }).decode(bytes);
const escape = (byte) => `\\x${byte.toString(16).padStart(2, "0")}`;

/** Splits bytes into parts: text, and bytes that are no text, written as escapes like \xff. */
export function shown(bytes) {
    let signs = "";
    for (let at = 0; at < bytes.length; at += 8192) signs += String.fromCharCode(...bytes.subarray(at, at + 8192));
    const parts = [];
    for (const [part, text] of signs.matchAll(new RegExp(`((?:${TEXT})+)|(?:(?!${TEXT})[^])+`, "g"))) {
        const own = Uint8Array.from(part, (it) => it.charCodeAt(0)), isText = text !== undefined;
        parts.push({ isText, text: isText ? decode(own) : Array.from(own, escape).join("") });
    }
    return parts;
}

/** The first bytes, at most `count` of them, up to the end of a character. */
export function firstOf(bytes, count) {
    if (bytes.length <= count) return bytes;
    let end = count;
    while (end > count - 4 && (bytes[end] & 0xc0) === 0x80) end--;
    return bytes.subarray(0, end);
}
