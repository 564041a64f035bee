/* cut, paste, join, comm, uniq and tr over bytes in memory, and over streams. ptext(3) is the manual page. */
#ifndef PTEXT_H
#define PTEXT_H

#include <stddef.h>
#include <stdint.h>

#ifdef __cplusplus
extern "C" {
#endif

#define PTEXT_VERSION "0.1.0"

/* The version of the library that runs. */
const char *ptext_version(void);

/* Statuses after the exit statuses of the program, 0 to 2. */
#define PTEXT_ROOM 3      /* There was too little room: both rooms hold the beginning, and the rest is counted. */
#define PTEXT_MEMORY 4    /* Memory ran out: the output is a beginning of the whole. */
#define PTEXT_ARGUMENTS 5 /* The arguments are not what is asked for below. Nothing was run. */
#define PTEXT_STOPPED 6   /* A function of the caller has stopped the run. */

/* The end of a file that cannot be opened. */
#define PTEXT_NO_FILE SIZE_MAX

/* How much of a text was written to its room, and how many bytes more there would have been. */
struct ptext_part {
    size_t written;
    size_t lacking;
};

struct ptext_answer {
    struct ptext_part out;
    struct ptext_part messages;
    uint8_t status;
};

/*
 * Writes the words of a list that ends with a null pointer, as that of main, to `into` as all calls below take them:
 * each ends with byte 0. Returns their size. If that is above `room`, not all of them are written.
 */
size_t ptext_words(char *const *words, uint8_t *into, size_t room);

/*
 * Runs a command, and returns the status, which is also in `answer`.
 *
 * `words` are the words of the command, the name of the tool first. Each ends with byte 0. `input` is standard input.
 * `files` are the files that the words name, in their order, one after another. `ends[i]` is where file i ends, and
 * PTEXT_NO_FILE if it cannot be opened; so is a file with no end. The output goes to `out`, also that of `uniq` with an
 * output file, and the messages to `messages`.
 *
 * A pointer may be null if its size is 0; `answer` may not. No size is above PTRDIFF_MAX or reaches past the last
 * address. What is written to (`out`, `messages` and `answer`) may overlap neither each other nor what is read.
 * If not, the status is PTEXT_ARGUMENTS, and nothing is written but `answer` (unless it is null) and a message. If
 * there is too little room for the message, the status is PTEXT_ROOM. If something of this is wrong with `messages`
 * itself, it is PTEXT_ARGUMENTS, and all of the message is counted as lacking.
 *
 * The caller owes that each pointer has as many bytes (or ends) behind it as its size says, that nobody else writes to
 * them during the call, and that malloc(3) aligns to 16 bytes. Threads may call at the same time, each with a stack of
 * 128 KiB or more. The call may not be made from a signal handler.
 */
uint8_t ptext_run(const uint8_t *words, size_t words_size, const uint8_t *input, size_t input_size,
                  const uint8_t *files, size_t files_size, const size_t *ends, size_t ends_count,
                  uint8_t *out, size_t out_room, uint8_t *messages, size_t messages_room,
                  struct ptext_answer *answer);

/*
 * Writes the names of the files that a command reads, in the order in which ptext_run takes them, to `names`, and the
 * name of its output file, if it has one, to `output`. Each ends with byte 0. Words that are no command name no file.
 * The answer counts the names as `out`, and the name of the output file as `messages`. It writes no messages. What is
 * said above of pointers holds here, too.
 */
uint8_t ptext_names(const uint8_t *words, size_t words_size, uint8_t *names, size_t names_room,
                    uint8_t *output, size_t output_room, struct ptext_answer *answer);

/* ---- streams: inputs and outputs of any length, in constant memory */

/* The numbers of the streams of a run. */
#define PTEXT_INPUT 0    /* standard input */
#define PTEXT_OUTPUT 1   /* the output, also that of `uniq` with an output file */
#define PTEXT_MESSAGES 2 /* the messages */
#define PTEXT_FILE 3     /* the first file that the words name; the next one is 4, and so on */

/* A function of the caller returns this to end the run at once, without a message. */
#define PTEXT_STOP PTRDIFF_MIN

/*
 * Reads a stream: puts at least one and at most `room` bytes into `into` and returns how many, or 0 at the end. It may
 * not use the room once it has returned.
 */
typedef ptrdiff_t ptext_read(void *context, uint32_t stream, uint8_t *into, size_t room);

/* Writes to a stream: takes at least one and at most `size` bytes and returns how many. */
typedef ptrdiff_t ptext_write(void *context, uint32_t stream, const uint8_t *bytes, size_t size);

/* Choices for a run over streams. All that is 0, but `size`, is as if it were not chosen. */
struct ptext_options {
    /* sizeof(struct ptext_options): so a later version, with more choices, knows how many there are. */
    size_t size;
    /* A byte for each file that the words name, in the order of ptext_names. A file whose byte is 0, or which has none,
     * cannot be opened. */
    const uint8_t *opened;
    size_t files;
    /* The most bytes of memory that the run may have requested at a time; 0 is any number. */
    size_t memory;
    /* Called once the output is written, and not for messages; returns 0, or less if what was written may be lost. */
    ptrdiff_t (*flush)(void *context, uint32_t stream);
};

/*
 * Runs a command over streams, and returns the exit status of the program, 0 to 2; PTEXT_MEMORY if memory ran out,
 * PTEXT_STOPPED if a function has stopped it, and PTEXT_ARGUMENTS if a pointer is null (only `context` and `options` may
 * be, and `context` not for descriptors), `size` is another, or there are more than 2^31 - 4 files.
 *
 * A stream is read from its beginning, one read after another, and not again once it has ended or failed. No more is
 * read ahead than one block of 8,192 bytes, in which the output is written, too.
 *
 * A function that returns less than 0, a read of more than `room`, and a write of none or of more than `size`, have
 * failed. As in the program, that is said in a message ("cut: standard input: read failed"), and the status is 1. The
 * output is then a beginning of the whole; after a failed read, with all that was decided by then.
 *
 * Threads may call at the same time, as above. The functions are called in the thread of the call. They return (no
 * longjmp, no exception), and may call what is declared here.
 */
uint8_t ptext_stream(const uint8_t *words, size_t words_size, ptext_read *read, ptext_write *write, void *context,
                     const struct ptext_options *options);

/*
 * Functions for ptext_stream over descriptors: `context` points to a list of ints, by the numbers of the streams. A call
 * that a signal interrupts is made again. A write to a pipe that nobody reads raises SIGPIPE, unless it is ignored.
 */
ptrdiff_t ptext_read_descriptor(void *context, uint32_t stream, uint8_t *into, size_t room);
ptrdiff_t ptext_write_descriptor(void *context, uint32_t stream, const uint8_t *bytes, size_t size);

/*
 * The same run step by step, for iterators, event loops and parsers, which cannot be called. Nothing runs between two
 * steps. A run has a stack of its own, 256 KiB, and collects up to 64 KiB of output.
 */
struct ptext_run;

#define PTEXT_READ 1  /* Bytes of the stream are wanted: set `bytes` and `size` (0 at the end). They stay as they are until
                         the same stream is wanted again. */
#define PTEXT_WRITE 2 /* Bytes for the stream are there, until the next step. */
#define PTEXT_ENDED 3 /* The run has ended, with this status. */

/* The `size` to set if the read or the write has failed. */
#define PTEXT_FAILED SIZE_MAX

struct ptext_step {
    int wants;
    uint32_t stream;
    const uint8_t *bytes;
    size_t size;
    uint8_t status;
};

/* Begins a run (`flush` of the options is not called). Null if there is no memory, or an argument is not what ptext_stream
 * asks for. */
struct ptext_run *ptext_open(const uint8_t *words, size_t words_size, const struct ptext_options *options);

/*
 * Goes on to the next step, and returns what it wants. `step` has the answer to the last one. Any thread may go on with a
 * run, but only one at a time, and not from within a call of the same run. If a pointer is null (as `run` is where
 * ptext_open has failed), PTEXT_ENDED is returned, and the status is PTEXT_ARGUMENTS.
 */
int ptext_next(struct ptext_run *run, struct ptext_step *step);

/* Ends a run, at any step. Of a null pointer, it does nothing. */
void ptext_close(struct ptext_run *run);

#ifdef __cplusplus
}
#endif

#endif
