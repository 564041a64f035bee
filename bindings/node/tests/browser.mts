// A program for a page that uses the package, whose types are checked as those of user.mts.
import { PtextError, run, type Input, type Options } from "ptext/browser";

async function read(file: File, signal: AbortSignal): Promise<Uint8Array> {
    const files: Record<string, Input> = { file, text: "a\n", pieces: ["a", new Uint8Array([10])] };
    const options: Options = { stdin: file, files, memory: 2 ** 20, signal };
    const nothing: void = await run(["uniq"], { ...options, write: (piece) => void piece.length });
    return run(["paste", "-", "file"] as const, { ...options, stdin: String(nothing) });
}

// What is wrong is refused.
// @ts-expect-error (a page has no files by their URL)
run(["uniq"], { stdin: new URL("file:///etc/passwd") });
// @ts-expect-error (a stream is not read)
run(["uniq"], { stdin: new Blob([]).stream() });
// @ts-expect-error (there is no such option)
run(["uniq"], { stdIn: "a" });
export { PtextError, read };
