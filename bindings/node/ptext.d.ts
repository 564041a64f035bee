/** A part of an input: a text (taken as UTF-8), an ArrayBuffer, or a view of one, whose bytes are taken. */
export type Piece = string | ArrayBuffer | SharedArrayBuffer | ArrayBufferView;

/** An input for `run`: its bytes, pieces of them, or the URL of a file (`file:`), which is opened. */
export type SyncInput = Piece | Iterable<Piece> | URL;

/** An input for `stream`: also what has to be waited for, as a Readable, a ReadableStream, or the output of another
 * command. */
export type Input = SyncInput | AsyncIterable<Piece> | ReadableStream<Piece> | Blob;

/** Files by their names. A name that is not there cannot be opened. */
export type Files<Kind> = Readonly<Record<string, Kind | undefined>> | ReadonlyMap<string, Kind>;

export interface Options<Kind> {
    /** Standard input. Without it there are no bytes. */
    stdin?: Kind;
    files?: Files<Kind>;
    /** The most bytes of memory that the command may have at a time, beside the 5 MiB of the module (1 GiB). */
    memory?: number;
}

/**
 * Runs a command, the name of the tool first, in this thread, and returns its output. With `write` the output goes
 * there, in pieces as they come, whose bytes are others after that call: copy what you keep. Throws a PtextError if the
 * status is not 0.
 */
export function run(words: readonly string[], options: Options<SyncInput> & { write(piece: Uint8Array): void }): void;
export function run(words: readonly string[], options?: Options<SyncInput>): Uint8Array;

/**
 * Runs a command, the name of the tool first, in a thread of its own, and returns its output as a stream, over which
 * `for await` goes, too. Inputs are read as they are needed, and nothing is read before the output is. After the last
 * piece it throws a PtextError if the status is not 0. What an input throws comes through. Leaving the loop, or
 * `cancel()`, ends the command, and closes the inputs that it has begun to read. Others stay as they were. A stream to
 * which nothing refers any more is ended, too, some time later.
 */
export function stream(
    words: readonly string[],
    options?: Options<Input>,
): ReadableStream<Uint8Array> & AsyncIterable<Uint8Array>;

/** The names of the files that a command reads, in their order, and that of its output file, if it has one. */
export function names(words: readonly string[]): { read: string[]; output: string | null };

/** A command ended with a status that is not 0: 1 or 2, as the program, or 4 if memory ran out. */
export class PtextError extends Error {
    readonly status: number;
    /** All messages; `message` has the same, without the last end of line. */
    readonly messages: string;
    /** The output of `run`, which may be incomplete. */
    readonly out: Uint8Array;
    /** The names of files that `files` lacks. */
    readonly unknown: string[];
}
