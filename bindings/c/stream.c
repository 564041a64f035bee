/* Runs over streams. The proved crate reads and writes streams by their numbers, with the calls of the C library that its
 * library `io` makes, and requests memory by three more. The build binds all five to functions of this file, which find
 * the run of their thread, and hold the caller's functions to what the crate was proved with. */
#define _GNU_SOURCE
#include "ptext.h"

#include <errno.h>
#include <stdlib.h>
#include <string.h>
#include <sys/mman.h>
#include <unistd.h>

/* The export of the crate. */
uint8_t ptext_run_streams(const uint8_t *words, size_t words_size, const uint8_t *opened, size_t opened_count);

/* The calls of the toolchain for memory. Of one that failed, `at` is not null either. */
struct tried {
    _Bool ok;
    void *at;
};
struct tried rattle_alloc(size_t size, size_t align);
struct tried rattle_realloc(void *at, size_t kept, size_t size, size_t align);
void rattle_dealloc(void *at);

/* The functions to which the calls of the crate are bound. */
ptrdiff_t ptext_host_read(int number, uint8_t *into, size_t room);
ptrdiff_t ptext_host_write(int number, const uint8_t *bytes, size_t size);
struct tried ptext_host_alloc(size_t size, size_t align);
struct tried ptext_host_realloc(void *at, size_t kept, size_t size, size_t align);
void ptext_host_dealloc(void *at);

/* The state of a stream that is read: it has failed, or its last read has given less than there was room for. */
#define HAS_FAILED 1
#define IS_SHORT 2

/* A run: how its streams are read, written and flushed, what is known of each, and what memory is left to it. */
struct host {
    ptrdiff_t (*read)(struct host *host, uint32_t stream, uint8_t *into, size_t room);
    ptrdiff_t (*write)(struct host *host, uint32_t stream, const uint8_t *bytes, size_t size);
    ptrdiff_t (*flush)(struct host *host, uint32_t stream);
    uint8_t *states;
    size_t count;
    int is_limited, is_stopped;
    size_t memory;
};

/* The run of this thread. */
static _Thread_local struct host *running;
/* No bytes, for null pointers with size 0. */
static uint8_t nothing;

const char *ptext_version(void) {
    return PTEXT_VERSION;
}

static int is_given(const void *at, size_t size) {
    return size == 0 || (at && size <= PTRDIFF_MAX && size <= UINTPTR_MAX - (uintptr_t)at);
}

static const struct ptext_options no_options = {.size = sizeof no_options};

/* Whether the arguments of a run are what is asked for. */
static int are_given(const uint8_t *words, size_t words_size, const struct ptext_options *options) {
    return is_given(words, words_size) && options->size == sizeof *options &&
           options->files <= INT32_MAX - PTEXT_FILE && is_given(options->opened, options->files);
}

/* The status of a run in this thread, unless it was stopped. */
static uint8_t run(struct host *host, const uint8_t *words, size_t words_size, const uint8_t *opened, size_t files) {
    struct host *outer = running;
    running = host;
    uint8_t status = ptext_run_streams(words_size ? words : &nothing, words_size, files ? opened : &nothing, files);
    running = outer;
    return status;
}

/* ---- by functions of the caller */

struct called {
    struct host host;
    ptext_read *read;
    ptext_write *write;
    ptrdiff_t (*flush)(void *context, uint32_t stream);
    void *context;
};

/* (While a function of the caller runs, no run does: what it calls requests its own memory.) */
static ptrdiff_t called_read(struct host *host, uint32_t stream, uint8_t *into, size_t room) {
    struct called *called = (struct called *)host;
    running = NULL;
    ptrdiff_t got = called->read(called->context, stream, into, room);
    running = host;
    return got;
}

static ptrdiff_t called_write(struct host *host, uint32_t stream, const uint8_t *bytes, size_t size) {
    struct called *called = (struct called *)host;
    running = NULL;
    ptrdiff_t got = called->write(called->context, stream, bytes, size);
    running = host;
    return got;
}

static ptrdiff_t called_flush(struct host *host, uint32_t stream) {
    struct called *called = (struct called *)host;
    if (!called->flush)
        return 0;
    running = NULL;
    ptrdiff_t got = called->flush(called->context, stream);
    running = host;
    return got;
}

uint8_t ptext_stream(const uint8_t *words, size_t words_size, ptext_read *read, ptext_write *write, void *context,
                     const struct ptext_options *options) {
    if (!options)
        options = &no_options;
    if (!read || !write || !are_given(words, words_size, options))
        return PTEXT_ARGUMENTS;
    if (!context && (read == ptext_read_descriptor || write == ptext_write_descriptor))
        return PTEXT_ARGUMENTS;
    size_t count = options->files + PTEXT_FILE;
    struct called called = {
        {called_read, called_write, called_flush, calloc(count, 1), count, options->memory > 0, 0, options->memory},
        read, write, options->flush, context,
    };
    if (!called.host.states)
        return PTEXT_MEMORY;
    uint8_t status = run(&called.host, words, words_size, options->opened, options->files);
    free(called.host.states);
    return called.host.is_stopped ? PTEXT_STOPPED : status;
}

ptrdiff_t ptext_read_descriptor(void *context, uint32_t stream, uint8_t *into, size_t room) {
    const int *descriptors = context;
    ptrdiff_t got;
    do
        got = read(descriptors[stream], into, room);
    while (got < 0 && errno == EINTR);
    return got;
}

ptrdiff_t ptext_write_descriptor(void *context, uint32_t stream, const uint8_t *bytes, size_t size) {
    const int *descriptors = context;
    ptrdiff_t got;
    do
        got = write(descriptors[stream], bytes, size);
    while (got < 0 && errno == EINTR);
    return got;
}

/* ---- step by step */

/* (native/stack.c) */
void *ptext_begin_stack(void *end, void (*begins)(void));
void ptext_change_stack(void **left, void *to);

#define STACK ((size_t)256 << 10)
#define COLLECTED ((size_t)64 << 10)

/* The rest of the bytes that the caller gave for a stream. */
struct given {
    const uint8_t *bytes;
    size_t size;
};

struct ptext_run {
    struct host host;
    void *inside, *outside; /* the two stacks, as they were left */
    struct ptext_step *step; /* of the call of ptext_next that is going on */
    uint8_t *words, *opened;
    size_t words_size;
    struct given *given; /* by the number of the stream */
    size_t collected;
    uint8_t *stack;
    size_t page;
    int begun, ended, has_failed;
    uint8_t status;
    uint8_t out[COLLECTED];
};

/* Leaves the run until the caller has answered this step. Returns whether the run goes on. */
static int ask(struct ptext_run *run, int wants, uint32_t stream, const uint8_t *bytes, size_t size) {
    *run->step = (struct ptext_step){wants, stream, bytes, size, 0};
    ptext_change_stack(&run->inside, run->outside);
    return !run->host.is_stopped;
}

/* Hands out what was collected. Returns PTEXT_STOP or -1 if there is no use in writing more. */
static ptrdiff_t hand_out(struct ptext_run *run) {
    if (run->collected && !run->has_failed) {
        if (!ask(run, PTEXT_WRITE, PTEXT_OUTPUT, run->out, run->collected))
            return PTEXT_STOP;
        run->collected = 0;
        run->has_failed = run->step->size == PTEXT_FAILED;
    }
    return run->has_failed ? -1 : 0;
}

static ptrdiff_t step_read(struct host *host, uint32_t stream, uint8_t *into, size_t room) {
    struct ptext_run *run = (struct ptext_run *)host;
    struct given *from = &run->given[stream];
    if (!from->size) {
        /* (If this write fails, the next one says so.) */
        if (hand_out(run) == PTEXT_STOP || !ask(run, PTEXT_READ, stream, NULL, 0))
            return PTEXT_STOP;
        if (!is_given(run->step->bytes, run->step->size))
            return -1;
        *from = (struct given){run->step->bytes, run->step->size};
    }
    size_t count = from->size < room ? from->size : room;
    if (count) {
        memcpy(into, from->bytes, count);
        from->bytes += count;
        from->size -= count;
    }
    return (ptrdiff_t)count;
}

static ptrdiff_t step_write(struct host *host, uint32_t stream, const uint8_t *bytes, size_t size) {
    struct ptext_run *run = (struct ptext_run *)host;
    if (stream != PTEXT_OUTPUT) {
        if (!ask(run, PTEXT_WRITE, stream, bytes, size))
            return PTEXT_STOP;
        return run->step->size == PTEXT_FAILED ? -1 : (ptrdiff_t)size;
    }
    if (run->has_failed || run->collected == COLLECTED) {
        ptrdiff_t got = hand_out(run);
        if (got < 0)
            return got;
    }
    size_t left = COLLECTED - run->collected, count = size < left ? size : left;
    memcpy(run->out + run->collected, bytes, count);
    run->collected += count;
    return (ptrdiff_t)count;
}

static ptrdiff_t step_flush(struct host *host, uint32_t stream) {
    return stream == PTEXT_OUTPUT ? hand_out((struct ptext_run *)host) : 0;
}

/* The function of the run's own stack, which never returns. */
static void inside(void) {
    struct ptext_run *run = (struct ptext_run *)running;
    size_t files = run->host.count - PTEXT_FILE;
    run->status = ptext_run_streams(run->words, run->words_size, run->opened, files);
    run->ended = 1;
    ptext_change_stack(&run->inside, run->outside);
    abort();
}

/* Prepares the stack of a run, below which no byte can be used. */
static int prepare(struct ptext_run *run) {
    run->page = (size_t)sysconf(_SC_PAGESIZE);
    int flags = MAP_PRIVATE | MAP_ANONYMOUS | MAP_STACK;
    void *stack = mmap(NULL, STACK + run->page, PROT_READ | PROT_WRITE, flags, -1, 0);
    if (stack == MAP_FAILED)
        return -1;
    run->stack = stack;
    if (mprotect(stack, run->page, PROT_NONE))
        return -1;
    run->inside = ptext_begin_stack(run->stack + run->page + STACK, inside);
    return 0;
}

/* A copy of these bytes. */
static uint8_t *copy(const uint8_t *bytes, size_t size) {
    uint8_t *copied = malloc(size + 1);
    if (copied && size)
        memcpy(copied, bytes, size);
    return copied;
}

struct ptext_run *ptext_open(const uint8_t *words, size_t words_size, const struct ptext_options *options) {
    if (!options)
        options = &no_options;
    if (!are_given(words, words_size, options))
        return NULL;
    struct ptext_run *run = calloc(1, sizeof *run);
    if (!run)
        return NULL;
    size_t count = options->files + PTEXT_FILE;
    run->host = (struct host){
        step_read, step_write, step_flush, calloc(count, 1), count, options->memory > 0, 0, options->memory,
    };
    run->words = copy(words, words_size);
    run->words_size = words_size;
    run->opened = copy(options->opened, options->files);
    run->given = calloc(count, sizeof *run->given);
    if (!run->host.states || !run->words || !run->opened || !run->given || prepare(run)) {
        ptext_close(run);
        return NULL;
    }
    return run;
}

int ptext_next(struct ptext_run *run, struct ptext_step *step) {
    if (!run || !step) {
        if (step)
            *step = (struct ptext_step){PTEXT_ENDED, 0, NULL, 0, PTEXT_ARGUMENTS};
        return PTEXT_ENDED;
    }
    if (!run->ended) {
        struct host *outer = running;
        running = &run->host;
        run->step = step;
        run->begun = 1;
        ptext_change_stack(&run->outside, run->inside);
        running = outer;
    }
    if (run->ended)
        *step = (struct ptext_step){PTEXT_ENDED, 0, NULL, 0, run->host.is_stopped ? PTEXT_STOPPED : run->status};
    return step->wants;
}

void ptext_close(struct ptext_run *run) {
    struct ptext_step last;
    if (!run)
        return;
    /* (The run frees its own memory, once it hears that all else fails.) */
    run->host.is_stopped = 1;
    if (run->begun)
        ptext_next(run, &last);
    if (run->stack)
        munmap(run->stack, STACK + run->page);
    free(run->host.states);
    free(run->words);
    free(run->opened);
    free(run->given);
    free(run);
}

/* ---- in the place of read and write
 *
 * The crate reads by `read_full` of the toolchain, which calls read until the room is full or it gets 0. So after a read
 * that has given less comes a 0 that is not the end of the stream. A number with all bits changed asks about a stream
 * (crates/ptrunc/src/host.rt): one that is read must not have failed, and one that is written to is flushed. */

/* The answer of a function of the caller, -1 in place of all that is a failure. */
static ptrdiff_t checked(struct host *host, ptrdiff_t got, size_t most) {
    if (got == PTEXT_STOP)
        host->is_stopped = 1;
    return got < 0 || (size_t)got > most ? -1 : got;
}

static int is_written(uint32_t stream) {
    return stream == PTEXT_OUTPUT || stream == PTEXT_MESSAGES;
}

/* Whether a stream that is read has not failed, or one that is written to was flushed. */
static int is_sound(struct host *host, uint32_t stream) {
    if (host->is_stopped)
        return 0;
    if (!is_written(stream))
        return !(host->states[stream] & HAS_FAILED);
    return checked(host, host->flush(host, stream), SIZE_MAX) >= 0;
}

ptrdiff_t ptext_host_read(int number, uint8_t *into, size_t room) {
    struct host *host = running;
    if (!host || number < 0 || (size_t)number >= host->count || !room)
        return 0;
    uint8_t *state = &host->states[number];
    if (*state || host->is_stopped) {
        *state = *state == IS_SHORT && !host->is_stopped ? 0 : HAS_FAILED;
        return 0;
    }
    ptrdiff_t got = checked(host, host->read(host, (uint32_t)number, into, room), room);
    if (got < 0)
        *state = HAS_FAILED;
    else if (got && (size_t)got < room)
        *state = IS_SHORT;
    return got < 0 ? 0 : got;
}

ptrdiff_t ptext_host_write(int number, const uint8_t *bytes, size_t size) {
    struct host *host = running;
    uint32_t stream = (uint32_t)(number < 0 ? ~number : number);
    if (!host || stream >= host->count || host->is_stopped)
        return -1;
    if (number < 0)
        return is_sound(host, stream) ? (ptrdiff_t)size : -1;
    return checked(host, host->write(host, stream, bytes, size), size);
}

/* ---- in the place of the calls for memory
 *
 * In a run with a limit, a header before each block has its size. */

#define HEADER 16

static size_t *header(void *at) {
    return (size_t *)(void *)((uint8_t *)at - HEADER);
}

static struct tried with_header(struct host *host, struct tried got, size_t size) {
    if (!got.ok)
        return (struct tried){0, &nothing};
    *(size_t *)got.at = size;
    host->memory -= size;
    return (struct tried){1, (uint8_t *)got.at + HEADER};
}

struct tried ptext_host_alloc(size_t size, size_t align) {
    struct host *host = running;
    if (!host || !host->is_limited)
        return rattle_alloc(size, align);
    if (size > host->memory)
        return (struct tried){0, &nothing};
    return with_header(host, rattle_alloc(size + HEADER, HEADER), size);
}

struct tried ptext_host_realloc(void *at, size_t kept, size_t size, size_t align) {
    struct host *host = running;
    if (!host || !host->is_limited)
        return rattle_realloc(at, kept, size, align);
    size_t old = *header(at);
    if (size > old && size - old > host->memory)
        return (struct tried){0, &nothing};
    struct tried got = rattle_realloc(header(at), kept + HEADER, size + HEADER, HEADER);
    if (got.ok)
        host->memory += old;
    return with_header(host, got, size);
}

void ptext_host_dealloc(void *at) {
    struct host *host = running;
    if (!host || !host->is_limited) {
        rattle_dealloc(at);
        return;
    }
    host->memory += *header(at);
    rattle_dealloc(header(at));
}
