import type { Files, Piece } from "./ptext.js";

export { PtextError } from "./ptext.js";

/** An input: its bytes, a list of pieces, or a Blob, as a file that was chosen, which is read in parts. */
export type Input = Piece | readonly Piece[] | Blob;

export interface Options {
    /** Standard input. Without it there are no bytes. */
    stdin?: Input;
    files?: Files<Input>;
    /** The most bytes of memory that the command may have at a time, beside the 5 MiB of the module (1 GiB). */
    memory?: number;
    /** Ends the command, which then throws the reason of this signal. */
    signal?: AbortSignal;
}

/**
 * Runs a command, the name of the tool first, in a worker, and returns its output. With `write` the output goes there,
 * in pieces as they come. Throws a PtextError if the status is not 0.
 */
export function run(words: readonly string[], options: Options & { write(piece: Uint8Array): void }): Promise<void>;
export function run(words: readonly string[], options?: Options): Promise<Uint8Array>;
