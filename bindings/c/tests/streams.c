/* Runs over streams, by functions and step by step: streams that end early, come in small pieces, fail at each call in
 * turn, or break the rules; runs in runs, in threads, stopped and closed at each step; signals; limits of memory; and
 * how deep stacks get. */
#define _GNU_SOURCE
#include "ptext.h"

#include <errno.h>
#include <pthread.h>
#include <signal.h>
#include <stdio.h>
#include <stdlib.h>
#include <string.h>
#include <sys/mman.h>
#include <unistd.h>

static int failed;

static void expect(int holds, const char *what) {
    if (!holds) {
        printf("FAILED: %s\n", what);
        failed = 1;
    }
}

#define WORDS(text) (const uint8_t *)(text), sizeof(text)
#define SIZED .size = sizeof(struct ptext_options)
#define STREAMS 6

/* The inputs and outputs of a run in memory, and how they go wrong. */
struct world {
    const char *texts[STREAMS];  /* of the inputs, by number */
    size_t given[STREAMS];       /* how many bytes of them were read */
    size_t piece;                /* the most bytes of one read or write; 0 is any number */
    char out[STREAMS][40000];
    size_t written[STREAMS];
    size_t reads, writes, flushes;
    size_t bad_call;             /* the number of the read or write that goes wrong, from 1 */
    ptrdiff_t bad_answer;        /* what it returns */
    int has_ended[STREAMS];      /* a stream that has ended or failed */
    int is_wrong;                /* it was used again, or after a stop */
    int is_stopped;
};

static struct world world;

static size_t least(size_t a, size_t b) {
    return a < b ? a : b;
}

/* Whether this call goes wrong. */
static int is_bad(struct world *w, uint32_t stream) {
    w->is_wrong |= w->has_ended[stream] || w->is_stopped;
    if (!w->bad_call || w->reads + w->writes + w->flushes != w->bad_call)
        return 0;
    w->has_ended[stream] = 1;
    w->is_stopped = w->bad_answer == PTEXT_STOP;
    return 1;
}

static ptrdiff_t world_read(void *context, uint32_t stream, uint8_t *into, size_t room) {
    struct world *w = context;
    w->reads++;
    if (is_bad(w, stream))
        return w->bad_answer == PTRDIFF_MAX ? (ptrdiff_t)room + 1 : w->bad_answer;
    const char *text = w->texts[stream] ? w->texts[stream] : "";
    size_t count = least(strlen(text) - w->given[stream], room);
    count = w->piece ? least(count, w->piece) : count;
    if (count)
        memcpy(into, text + w->given[stream], count);
    w->given[stream] += count;
    w->has_ended[stream] = !count;
    return (ptrdiff_t)count;
}

static ptrdiff_t world_write(void *context, uint32_t stream, const uint8_t *bytes, size_t size) {
    struct world *w = context;
    w->writes++;
    if (is_bad(w, stream))
        return w->bad_answer == PTRDIFF_MAX ? (ptrdiff_t)size + 1 : w->bad_answer;
    size_t count = least(w->piece ? least(size, w->piece) : size, sizeof w->out[0] - w->written[stream]);
    memcpy(w->out[stream] + w->written[stream], bytes, count);
    w->written[stream] += count;
    return (ptrdiff_t)count;
}

static ptrdiff_t world_flush(void *context, uint32_t stream) {
    struct world *w = context;
    w->flushes++;
    return is_bad(w, stream) ? (w->bad_answer == PTRDIFF_MAX ? -1 : w->bad_answer) : 0;
}

static int has(const struct world *w, uint32_t stream, const char *text) {
    return w->written[stream] == strlen(text) && !memcmp(w->out[stream], text, w->written[stream]);
}

static const uint8_t both[] = {1, 1};
static const struct ptext_options two_files = {SIZED, .opened = both, .files = 2, .flush = world_flush};

static void reset(const char *input, const char *first, const char *second) {
    memset(&world, 0, sizeof world);
    world.texts[PTEXT_INPUT] = input;
    world.texts[PTEXT_FILE] = first;
    world.texts[PTEXT_FILE + 1] = second;
}

static uint8_t call(const char *words, size_t size) {
    return ptext_stream((const uint8_t *)words, size, world_read, world_write, &world, &two_files);
}

/* Commands over standard input and two files, with their outputs. */
static const struct {
    const char *words;
    size_t size;
    const char *input, *first, *second, *out;
} commands[] = {
    {"cut\0-d,\0-f2", 12, "a,b\nc,d,e", "", "", "b\nd\n"},
    {"cut\0-b1\0-\0x\0y", 14, "ab\n", "cd\n", "ef", "a\nc\ne\n"},
    {"paste\0-\0x\0y", 12, "1\n2\n", "a\n", "b\nc\nd", "1\ta\tb\n2\t\tc\n\t\td\n"},
    {"paste\0-s\0-d,\0x\0y", 17, "", "a\nb\n", "c", "a,b\nc\n"},
    {"join\0-a1\0x\0y", 13, "", "a 1\nb 2\n", "a 3\na 4\n", "a 1 3\na 1 4\nb 2\n"},
    {"comm\0x\0y", 9, "", "a\nb\n", "b\nc\n", "a\n\t\tb\n\tc\n"},
    {"uniq\0-c", 8, "a\na\nb\n", "", "", "2 a\n1 b\n"},
    {"uniq\0x\0out", 11, "", "a\na\nb\n", "", "a\nb\n"},
    {"tr\0-s\0a-z\0A-Z", 14, "aab\n", "", "", "AB\n"},
};
#define COMMANDS (sizeof commands / sizeof *commands)

static uint8_t run_command(size_t number, size_t piece, size_t bad_call, ptrdiff_t bad_answer) {
    reset(commands[number].input, commands[number].first, commands[number].second);
    world.piece = piece;
    world.bad_call = bad_call;
    world.bad_answer = bad_answer;
    return call(commands[number].words, commands[number].size);
}

static void small_pieces(void) {
    for (size_t number = 0; number < COMMANDS; number++)
        for (size_t piece = 0; piece < 5; piece++) {
            uint8_t status = run_command(number, piece, 0, 0);
            expect(!status && has(&world, PTEXT_OUTPUT, commands[number].out), commands[number].words);
            expect(!world.written[PTEXT_MESSAGES] && !world.is_wrong, "no message, and no call after the end");
        }
}

/* Each call fails in turn: by -1, by an errno, by more than was asked for, by a stop. */
static void each_call_fails(void) {
    static const ptrdiff_t answers[] = {-1, -5, PTRDIFF_MAX, PTEXT_STOP};
    for (size_t number = 0; number < COMMANDS; number++)
        for (size_t kind = 0; kind < sizeof answers / sizeof *answers; kind++)
            for (size_t bad_call = 1;; bad_call++) {
                uint8_t status = run_command(number, 1, bad_call, answers[kind]);
                if (world.reads + world.writes + world.flushes < bad_call)
                    break;
                int is_stop = answers[kind] == PTEXT_STOP;
                const char *out = commands[number].out;
                expect(!strncmp(out, world.out[PTEXT_OUTPUT], world.written[PTEXT_OUTPUT]), "a prefix");
                expect(!world.is_wrong, "no call after a failure or a stop");
                expect(!is_stop || status == PTEXT_STOPPED, "status of a stop");
                expect(is_stop || status == 1, "status of a failure");
                expect(is_stop == !world.written[PTEXT_MESSAGES], "message of a failure");
            }
    reset("ab\n", NULL, NULL);
    world.bad_call = 1;
    world.bad_answer = -1;
    expect(call("cut\0-b1", 8) == 1 && has(&world, PTEXT_MESSAGES, "cut: standard input: read failed\n"), "a read");
    reset("ab\n", NULL, NULL);
    world.bad_call = 2;
    world.bad_answer = -1;
    expect(call("cut\0-b1", 8) == 1 && has(&world, PTEXT_MESSAGES, "cut: output: write failed\n"), "a write");
    reset("ab\n", NULL, NULL);
    world.bad_call = 2;
    world.bad_answer = 0;
    expect(call("cut\0-b1", 8) == 1 && has(&world, PTEXT_MESSAGES, "cut: output: write failed\n"), "a write of none");
}

/* A line is written before the next one is read: a short read is one read. */
static ptrdiff_t line_read(void *context, uint32_t stream, uint8_t *into, size_t room) {
    struct world *w = context;
    (void)stream;
    expect(room > 4 && w->written[PTEXT_OUTPUT] == 2 * w->reads, "the output before a read");
    if (w->reads == 3)
        return 0;
    w->reads++;
    memcpy(into, "a,b\n", 4);
    return 4;
}

static void waits_for_nothing(void) {
    reset(NULL, NULL, NULL);
    uint8_t status = ptext_stream(WORDS("cut\0-d,\0-f1"), line_read, world_write, &world, NULL);
    expect(!status && has(&world, PTEXT_OUTPUT, "a\na\na\n"), "line by line");
}

static void bad_arguments(void) {
    static const uint8_t none[] = {0, 0};
    const struct ptext_options unopened = {SIZED, .opened = none, .files = 2};
    const struct ptext_options first = {SIZED, .opened = both, .files = 1};
    const struct ptext_options null = {SIZED, .files = 1}, many = {SIZED, .opened = both, .files = (size_t)1 << 31};
    const struct ptext_options later = {.size = sizeof later + 8, .opened = both, .files = 2};
    reset("", "a\n", "b\n");
    expect(ptext_stream(WORDS("paste\0x\0y"), world_read, world_write, &world, &unopened) == 1, "files that are not there");
    expect(has(&world, PTEXT_MESSAGES, "paste: x: cannot be opened\npaste: y: cannot be opened\n") && !world.reads, "both");
    reset("", "a\n", "b\n");
    expect(ptext_stream(WORDS("cut\0-b1\0x\0y"), world_read, world_write, &world, &first) == 1, "a file without a byte");
    expect(has(&world, PTEXT_OUTPUT, "a\n") && has(&world, PTEXT_MESSAGES, "cut: y: cannot be opened\n"), "one of two");
    reset("", NULL, NULL);
    expect(ptext_stream(WORDS("cut\0-q"), world_read, world_write, &world, NULL) == 2 && !world.reads, "no command");
    expect(has(&world, PTEXT_MESSAGES, "cut: unknown option in -q\n"), "the message");
    reset("", NULL, NULL);
    expect(ptext_stream(WORDS("cut\0\377"), world_read, world_write, &world, NULL) == 2, "words that are not UTF-8");
    expect(has(&world, PTEXT_MESSAGES, "ptext: a word is not UTF-8\n"), "the message");
    reset("", NULL, NULL);
    expect(ptext_stream(NULL, 0, world_read, world_write, &world, NULL) == 2, "no words");
    expect(ptext_stream(NULL, 1, world_read, world_write, &world, NULL) == PTEXT_ARGUMENTS, "null words");
    expect(ptext_stream(WORDS("cut"), NULL, world_write, &world, NULL) == PTEXT_ARGUMENTS, "no function to read");
    expect(ptext_stream(WORDS("cut"), world_read, NULL, &world, NULL) == PTEXT_ARGUMENTS, "no function to write");
    expect(ptext_stream(WORDS("cut"), world_read, world_write, &world, &null) == PTEXT_ARGUMENTS, "null files");
    expect(ptext_stream(WORDS("cut"), world_read, world_write, &world, &many) == PTEXT_ARGUMENTS, "2^31 files");
    expect(ptext_stream(WORDS("cut"), world_read, world_write, &world, &later) == PTEXT_ARGUMENTS, "a later version");
    ptext_read *read = ptext_read_descriptor;
    ptext_write *write = ptext_write_descriptor;
    expect(ptext_stream(WORDS("cut"), read, world_write, NULL, NULL) == PTEXT_ARGUMENTS, "no descriptors to read");
    expect(ptext_stream(WORDS("cut"), world_read, write, NULL, NULL) == PTEXT_ARGUMENTS, "no descriptors to write");
    expect(!ptext_open(NULL, 1, NULL) && !ptext_open(WORDS("cut"), &null), "a run of bad arguments");
    expect(!ptext_open(WORDS("cut"), &later), "a run of a later version");
    struct ptext_step step = {PTEXT_READ, 1, none, 2, 0};
    expect(ptext_next(NULL, &step) == PTEXT_ENDED && step.wants == PTEXT_ENDED, "a step of no run");
    expect(step.status == PTEXT_ARGUMENTS && !step.bytes && !step.size, "its status");
    struct ptext_run *run = ptext_open(WORDS("cut"), NULL);
    expect(run && ptext_next(run, NULL) == PTEXT_ENDED, "no step");
    ptext_close(run);
    ptext_close(NULL);
    expect(!strcmp(ptext_version(), PTEXT_VERSION), "the version");
}

/* Some memory, then more and more of it: until there is enough, the status says that there is not. */
static void little_memory(void) {
    static char long_lines[3][1200];
    for (int i = 0; i < 3; i++) {
        memset(long_lines[i], 'x', sizeof long_lines[i] - 2);
        long_lines[i][sizeof long_lines[i] - 2] = '\n';
    }
    uint8_t status = PTEXT_MEMORY;
    size_t memory;
    for (memory = 1; status == PTEXT_MEMORY && memory < 1 << 20; memory += memory < 4096 ? 1 : 512) {
        const struct ptext_options options = {SIZED, .opened = both, .files = 2, .memory = memory};
        reset("", long_lines[0], long_lines[1]);
        status = ptext_stream(WORDS("join\0x\0y"), world_read, world_write, &world, &options);
        expect(status == PTEXT_MEMORY || !status, "status with little memory");
        expect(!strncmp(world.out[PTEXT_OUTPUT], long_lines[0], least(world.written[PTEXT_OUTPUT], 1198)), "a prefix");
        expect(!status || world.written[PTEXT_MESSAGES], "a message of little memory");
    }
    expect(!status && memory > 2400 && memory < 100000, "enough memory");
}

/* ---- each request for memory is refused in turn (linked with --wrap=malloc,--wrap=calloc,--wrap=realloc) */

#ifdef REFUSED
static size_t requests, refused_request;

static int is_refused(void) {
    return ++requests == refused_request;
}

void *__real_malloc(size_t size);
void *__wrap_malloc(size_t size);
void *__wrap_malloc(size_t size) {
    return is_refused() ? NULL : __real_malloc(size);
}

void *__real_calloc(size_t count, size_t size);
void *__wrap_calloc(size_t count, size_t size);
void *__wrap_calloc(size_t count, size_t size) {
    return is_refused() ? NULL : __real_calloc(count, size);
}

void *__real_realloc(void *at, size_t size);
void *__wrap_realloc(void *at, size_t size);
void *__wrap_realloc(void *at, size_t size) {
    return is_refused() ? NULL : __real_realloc(at, size);
}

static int step_command(size_t number, size_t most, size_t bad_call);

static void each_request_is_refused(void) {
    for (size_t number = 0; number < COMMANDS; number++)
        for (int by_steps = 0; by_steps < 2; by_steps++)
            for (size_t request = 1;; request++) {
                requests = 0;
                refused_request = request;
                int status = by_steps ? step_command(number, SIZE_MAX, 0) : run_command(number, 0, 0, 0);
                refused_request = 0;
                const char *out = commands[number].out;
                expect(!strncmp(out, world.out[PTEXT_OUTPUT], world.written[PTEXT_OUTPUT]), "a prefix without memory");
                if (requests < request) {
                    expect(!status && request > 3, "all requests");
                    break;
                }
                /* (A list of words is tried again with less room.) */
                expect(status == PTEXT_MEMORY || (!status && has(&world, PTEXT_OUTPUT, out)), "a refused request");
            }
}
#endif

/* ---- how much of its stack a run leaves alone (linked with --wrap=mmap,--wrap=munmap) */

#ifdef PAINTED
#define PAINT 0xa5

static size_t untouched = SIZE_MAX;
static uint8_t *lowest;

void *__real_mmap(void *at, size_t size, int protection, int flags, int descriptor, off_t offset);
void *__wrap_mmap(void *at, size_t size, int protection, int flags, int descriptor, off_t offset);
void *__wrap_mmap(void *at, size_t size, int protection, int flags, int descriptor, off_t offset) {
    void *got = __real_mmap(at, size, protection, flags, descriptor, offset);
    if (got != MAP_FAILED && flags & MAP_STACK)
        lowest = memset(got, PAINT, size);
    return got;
}

int __real_munmap(void *at, size_t size);
int __wrap_munmap(void *at, size_t size);
int __wrap_munmap(void *at, size_t size) {
    /* (The lowest page cannot be read.) */
    size_t page = (size_t)sysconf(_SC_PAGESIZE), count = page;
    while (count < size && ((const uint8_t *)at)[count] == PAINT)
        count++;
    untouched = least(untouched, count - page);
    return __real_munmap(at, size);
}

/* All tools have run by now. A handler of a signal has what they leave. (They need more than 16 of the 256 KiB.) */
static void stacks(void) {
    if (untouched < 64 << 10 || untouched > 240 << 10) {
        printf("FAILED: %zu bytes of a stack are left, and not 64 to 240 KiB\n", untouched);
        failed = 1;
    }
}

/* What would go below a stack goes nowhere. */
static void ends_of_stacks(void) {
    int ends[2];
    struct ptext_run *run = ptext_open(WORDS("tr\0a\0b"), NULL);
    expect(run && !pipe(ends) && write(ends[1], "ab", 2) == 2, "a run and a pipe");
    size_t page = (size_t)sysconf(_SC_PAGESIZE);
    expect(read(ends[0], lowest + page - 1, 1) < 0 && errno == EFAULT, "a byte below a stack");
    expect(read(ends[0], lowest + page, 1) == 1, "its lowest byte");
    ptext_close(run);
}
#endif

/* ---- runs in runs, and threads */

/* Gives the output of a run of its own in each read. */
static ptrdiff_t nested_read(void *context, uint32_t stream, uint8_t *into, size_t room) {
    struct world *w = context;
    struct ptext_answer answer;
    uint8_t messages[10];
    (void)stream;
    if (w->reads++ == 3)
        return 0;
    static const uint8_t words[] = "tr\0a\0b", text[] = "a,b\n";
    static struct world inner;
    memset(&inner, 0, sizeof inner);
    inner.texts[PTEXT_INPUT] = "a,b\n";
    const struct ptext_options little = {SIZED, .memory = 1 << 16};
    expect(!ptext_stream(words, sizeof words, world_read, world_write, &inner, &little), "a run in a run");
    expect(has(&inner, PTEXT_OUTPUT, "b,b\n"), "its output");
    ptext_run(words, sizeof words, text, 4, NULL, 0, NULL, 0, into, room, messages, sizeof messages, &answer);
    return (ptrdiff_t)answer.out.written;
}

static void *many_runs(void *context) {
    for (int i = 0; i < 300; i++) {
        struct world w = {.texts = {"a,b\nc,d\n"}, .piece = 3};
        const struct ptext_options options = {SIZED, .memory = i % 2 ? 1 << 20 : 0};
        uint8_t status = ptext_stream(WORDS("cut\0-d,\0-f2"), world_read, world_write, &w, &options);
        if (status || !has(&w, PTEXT_OUTPUT, "b\nd\n"))
            return context;
    }
    return NULL;
}

static void four_threads(void) {
    pthread_t threads[4];
    static int wrong;
    /* (A thread of musl has less than a world, and ThreadSanitizer takes most of a megabyte.) */
    pthread_attr_t large;
    expect(!pthread_attr_init(&large) && !pthread_attr_setstacksize(&large, 8 << 20), "a large stack");
    for (int i = 0; i < 4; i++)
        expect(!pthread_create(&threads[i], &large, many_runs, &wrong), "a thread");
    for (int i = 0; i < 4; i++) {
        void *found;
        expect(!pthread_join(threads[i], &found) && !found, "runs in four threads");
    }
}

static void nested(void) {
    const struct ptext_options options = {SIZED, .memory = 1 << 16};
    reset(NULL, NULL, NULL);
    uint8_t status = ptext_stream(WORDS("cut\0-d,\0-f1"), nested_read, world_write, &world, &options);
    expect(!status && has(&world, PTEXT_OUTPUT, "b\nb\nb\n"), "runs in a run");
}

/* ---- step by step */

#ifndef NO_STEPS
/* Answers a step. Returns whether the run goes on. */
static int answer_step(struct world *w, struct ptext_step *step, uint8_t *buffers, size_t room) {
    if (step->wants == PTEXT_ENDED)
        return 0;
    if (step->wants == PTEXT_READ) {
        uint8_t *into = buffers + step->stream * room;
        ptrdiff_t got = world_read(w, step->stream, into, room);
        step->bytes = into;
        step->size = got < 0 || (size_t)got > room ? PTEXT_FAILED : (size_t)got;
    } else if (w->written[step->stream] + step->size <= sizeof w->out[0]) {
        w->writes++;
        if (is_bad(w, step->stream)) {
            step->size = PTEXT_FAILED;
            return 1;
        }
        memcpy(w->out[step->stream] + w->written[step->stream], step->bytes, step->size);
        w->written[step->stream] += step->size;
    }
    return 1;
}

static uint8_t buffers[STREAMS * 5];

/* Goes on for this many steps, and closes the run. Returns its status, or -1 if it has not ended. */
static int step_command(size_t number, size_t most, size_t bad_call) {
    reset(commands[number].input, commands[number].first, commands[number].second);
    world.bad_call = bad_call;
    world.bad_answer = -1;
    struct ptext_run *run = ptext_open((const uint8_t *)commands[number].words, commands[number].size, &two_files);
    struct ptext_step step = {0};
    int status = -1;
    if (!run)
        return PTEXT_MEMORY;
    while (most-- && ptext_next(run, &step) != PTEXT_ENDED)
        answer_step(&world, &step, buffers, 5);
    if (step.wants == PTEXT_ENDED) {
        status = step.status;
        expect(ptext_next(run, &step) == PTEXT_ENDED && step.status == status, "a step after the end");
    }
    ptext_close(run);
    return status;
}

static void steps(void) {
    for (size_t number = 0; number < COMMANDS; number++) {
        const char *out = commands[number].out;
        for (size_t most = 0; step_command(number, most, 0) < 0; most++)
            expect(!strncmp(out, world.out[PTEXT_OUTPUT], world.written[PTEXT_OUTPUT]), "a prefix, step by step");
        expect(has(&world, PTEXT_OUTPUT, out) && !world.written[PTEXT_MESSAGES] && !world.is_wrong, "step by step");
        for (size_t bad_call = 1;; bad_call++) {
            int status = step_command(number, SIZE_MAX, bad_call);
            if (world.reads + world.writes < bad_call)
                break;
            expect(status == 1 && world.written[PTEXT_MESSAGES] && !world.is_wrong, "a failed step");
            expect(!strncmp(out, world.out[PTEXT_OUTPUT], world.written[PTEXT_OUTPUT]), "a prefix of a failed step");
        }
    }
    struct ptext_step step = {0};
    static const struct ptext_options little = {SIZED, .memory = 100};
    struct ptext_run *run = ptext_open(WORDS("cut\0-b1"), &little);
    reset("ab\n", NULL, NULL);
    while (ptext_next(run, &step) != PTEXT_ENDED)
        answer_step(&world, &step, buffers, 5);
    expect(step.status == PTEXT_MEMORY, "steps with little memory");
    ptext_close(run);
}

/* A read whose answer is no span of memory has failed. */
static void bad_steps(void) {
    const struct {
        const uint8_t *bytes;
        size_t size;
    } bad[] = {{NULL, 5}, {both, PTEXT_FAILED}, {both, SIZE_MAX / 2 + 1}, {(uint8_t *)(UINTPTR_MAX - 3), 8}};
    for (size_t i = 0; i < sizeof bad / sizeof *bad; i++) {
        struct ptext_step step = {0};
        struct ptext_run *run = ptext_open(WORDS("tr\0a\0b"), NULL);
        expect(ptext_next(run, &step) == PTEXT_READ && step.stream == PTEXT_INPUT, "a first step");
        step.bytes = bad[i].bytes;
        step.size = bad[i].size;
        expect(ptext_next(run, &step) == PTEXT_WRITE && step.stream == PTEXT_MESSAGES, "a message of a bad answer");
        while (ptext_next(run, &step) != PTEXT_ENDED) {
        }
        expect(step.status == 1, "status of a bad answer");
        ptext_close(run);
    }
}

struct moved {
    struct ptext_run *run;
    struct ptext_step step;
};

static void *move_on(void *context) {
    struct moved *moved = context;
    ptext_next(moved->run, &moved->step);
    return NULL;
}

/* Each step of a run is in another thread, and other runs go on there. */
static void moves_between_threads(void) {
    struct moved moved = {ptext_open(WORDS("cut\0-d,\0-f1"), NULL), {0}};
    reset("a,b\nc,d\n", NULL, NULL);
    do {
        pthread_t thread;
        expect(!pthread_create(&thread, NULL, move_on, &moved) && !pthread_join(thread, NULL), "a thread");
        expect(!many_runs(&world), "runs between steps");
    } while (answer_step(&world, &moved.step, buffers, 5));
    expect(!moved.step.status && has(&world, PTEXT_OUTPUT, "a\nc\n"), "a run that moves between threads");
    ptext_close(moved.run);
}

static volatile sig_atomic_t signals;

static void count_signal(int number) {
    (void)number;
    signals++;
}

/* A step blocks the signals that its caller blocks, not those of the beginning of the run. */
static void blocked_signals(void) {
    struct ptext_step step = {0};
    struct ptext_run *run = ptext_open(WORDS("tr\0a\0b"), NULL);
    sigset_t set, before;
    sigemptyset(&set);
    sigaddset(&set, SIGUSR1);
    signal(SIGUSR1, count_signal);
    pthread_sigmask(SIG_BLOCK, &set, &before);
    raise(SIGUSR1);
    ptext_next(run, &step);
    expect(!signals, "a signal that is blocked after the beginning");
    pthread_sigmask(SIG_SETMASK, &before, NULL);
    expect(signals == 1, "the signal afterwards");
    ptext_close(run);
}
#endif

int main(void) {
    small_pieces();
    each_call_fails();
    waits_for_nothing();
    bad_arguments();
    little_memory();
    nested();
    four_threads();
#ifndef NO_STEPS
    steps();
    bad_steps();
    moves_between_threads();
    blocked_signals();
#endif
#ifdef PAINTED
    stacks();
    ends_of_stacks();
#endif
#ifdef REFUSED
    each_request_is_refused();
#endif
    if (!failed)
        puts("streams: all runs as expected");
    return failed;
}
