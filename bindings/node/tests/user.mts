// A program that uses the package for node as most do: bindings/page/tests/page.sh has a compiler of TypeScript check its types.
import { PtextError, names, run, stream, type Files, type Input, type Options, type SyncInput } from "ptext";

const bytes = new Uint8Array([97, 10]);

function* lines(): Generator<string> {
    yield "1,ann\n";
}

async function* awaited(): AsyncGenerator<Uint8Array | string> {
    yield bytes;
    yield "b\n";
}

const whole: Uint8Array = run(["cut", "-d", ",", "-f", "2"], { stdin: lines(), memory: 2 ** 20 });
const nothing: void = run(["uniq"], { stdin: whole, write: (piece) => void piece.slice(0, piece.length) });
const kinds: Record<string, SyncInput | undefined> = {
    text: "a",
    buffer: bytes.buffer,
    shared: new SharedArrayBuffer(1),
    view: new DataView(bytes.buffer),
    pieces: ["a", bytes],
    file: new URL("file:///etc/passwd"),
    none: undefined,
};
run(["paste", ...Object.keys(kinds)] as const, { files: kinds });

async function read(): Promise<number> {
    const files: Files<Input> = new Map<string, Input>([["awaited", awaited()], ["blob", new Blob(["a"])]]);
    const options: Options<Input> = { stdin: stream(["uniq"], { stdin: kinds.text! }), files };
    let count = 0;
    for await (const piece of stream(["paste", "-", "awaited", "blob"], options)) count += piece.byteLength;
    await stream(["uniq"], options).cancel();
    await stream(["uniq"]).pipeTo(new WritableStream<Uint8Array>());
    return count;
}

read().catch((error: unknown) => {
    if (!(error instanceof PtextError)) throw error;
    const said: [number, string, Uint8Array, string[], string] =
        [error.status, error.messages, error.out, error.unknown, error.message];
    return said;
});
const named: { read: string[]; output: string | null } = names(["uniq", "a", "b"]);

// What is wrong is refused.
// @ts-expect-error (words are a list)
run("uniq");
// @ts-expect-error (a word is a string)
run(["cut", "-f", 1]);
// @ts-expect-error (a number is no input)
run(["uniq"], { stdin: 7 });
// @ts-expect-error (`run` does not wait)
run(["uniq"], { stdin: awaited() });
// @ts-expect-error (with `write` nothing is returned)
const none: Uint8Array = run(["uniq"], { write: () => {} });
// @ts-expect-error (there is no such option)
stream(["uniq"], { file: {} });
// @ts-expect-error (pieces are bytes or texts)
stream(["uniq"], { stdin: [1] });
export { named, none, nothing };
