/* Calls stream.c alone: what is here in the place of the proved crate counts what memory it gets, and what is freed.
 * And reads and writes that signals interrupt. */
#define _GNU_SOURCE
#include "ptext.h"

#include <fcntl.h>
#include <pthread.h>
#include <signal.h>
#include <stdio.h>
#include <stdlib.h>
#include <string.h>
#include <sys/time.h>
#include <unistd.h>

static int failed;

static void expect(int holds, const char *what) {
    if (!holds) {
        printf("FAILED: %s\n", what);
        failed = 1;
    }
}

/* ---- in the place of the crate and of the toolchain's calls for memory */

struct tried {
    _Bool ok;
    void *at;
};
struct tried rattle_alloc(size_t size, size_t align);
struct tried rattle_realloc(void *at, size_t kept, size_t size, size_t align);
void rattle_dealloc(void *at);
ptrdiff_t ptext_host_read(int number, uint8_t *into, size_t room);
ptrdiff_t ptext_host_write(int number, const uint8_t *bytes, size_t size);
struct tried ptext_host_alloc(size_t size, size_t align);
struct tried ptext_host_realloc(void *at, size_t kept, size_t size, size_t align);
void ptext_host_dealloc(void *at);
uint8_t ptext_run_streams(const uint8_t *words, size_t words_size, const uint8_t *opened, size_t opened_count);

static void (*crate)(void);
static int blocks, is_denied;

uint8_t ptext_run_streams(const uint8_t *words, size_t words_size, const uint8_t *opened, size_t opened_count) {
    expect(words && !words_size && opened && !opened_count, "what a run is called with");
    crate();
    return 0;
}

struct tried rattle_alloc(size_t size, size_t align) {
    (void)align;
    blocks++;
    return (struct tried){1, malloc(size)};
}

struct tried rattle_realloc(void *at, size_t kept, size_t size, size_t align) {
    (void)kept;
    (void)align;
    return is_denied ? (struct tried){0, at} : (struct tried){1, realloc(at, size)};
}

void rattle_dealloc(void *at) {
    blocks--;
    free(at);
}

/* ---- a limit of 1,000 bytes */

#define LIMIT 1000
static const struct ptext_options limited = {.size = sizeof limited, .memory = LIMIT};

/* Whether this many bytes can be had, which are given back. */
static int can_have(size_t size) {
    struct tried got = ptext_host_alloc(size, 8);
    if (got.ok) {
        memset(got.at, 'x', size);
        ptext_host_dealloc(got.at);
    }
    return got.ok;
}

/* Whether this many bytes are left of the limit, and no more. */
static int are_left(size_t size) {
    return (!size || can_have(size)) && !can_have(size + 1);
}

static void counts_memory(void) {
    expect(are_left(LIMIT) && are_left(LIMIT), "all of it, given back");
    struct tried a = ptext_host_alloc(600, 8);
    expect(a.ok && are_left(400), "after a request");
    expect(!ptext_host_realloc(a.at, 600, 1001, 8).ok && are_left(400), "a growth above the limit");
    a = ptext_host_realloc(a.at, 600, 900, 8);
    expect(a.ok && are_left(100), "after a growth");
    is_denied = 1;
    expect(!ptext_host_realloc(a.at, 900, 950, 8).ok && are_left(100), "after a growth that is denied");
    is_denied = 0;
    a = ptext_host_realloc(a.at, 900, 1000, 8);
    expect(a.ok && are_left(0), "at the limit");
    a = ptext_host_realloc(a.at, 1000, 10, 8);
    expect(a.ok && are_left(990), "after it shrank");
    ptext_host_dealloc(a.at);
    expect(are_left(LIMIT), "after all is given back");
}

/* The functions of a caller request their own memory. */
static ptrdiff_t free_read(void *context, uint32_t stream, uint8_t *into, size_t room) {
    expect(!context && stream == PTEXT_INPUT && into && room == 5, "what a read is called with");
    expect(can_have(2 * LIMIT), "memory for a function that reads");
    return 0;
}

static ptrdiff_t free_write(void *context, uint32_t stream, const uint8_t *bytes, size_t size) {
    expect(!context && stream == PTEXT_OUTPUT && !memcmp(bytes, "abc", 3), "what a write is called with");
    expect(can_have(2 * LIMIT), "memory for a function that writes");
    return (ptrdiff_t)size;
}

static ptrdiff_t free_flush(void *context, uint32_t stream) {
    expect(!context && stream == PTEXT_OUTPUT, "what a flush is called with");
    expect(can_have(2 * LIMIT), "memory for a function that flushes");
    return 0;
}

static void calls_functions(void) {
    uint8_t room[5];
    expect(ptext_host_read(PTEXT_INPUT, room, 5) == 0, "a read");
    expect(are_left(LIMIT), "memory after a read");
    expect(ptext_host_write(PTEXT_OUTPUT, (const uint8_t *)"abc", 3) == 3, "a write");
    expect(are_left(LIMIT), "memory after a write");
    expect(ptext_host_write(~PTEXT_OUTPUT, (const uint8_t *)"", 1) == 1, "a flush");
    expect(are_left(LIMIT), "memory after a flush");
}

static void limits(void) {
    struct ptext_options options = limited;
    options.flush = free_flush;
    crate = counts_memory;
    expect(!ptext_stream(NULL, 0, free_read, free_write, NULL, &options), "a run that counts memory");
    crate = calls_functions;
    expect(!ptext_stream(NULL, 0, free_read, free_write, NULL, &options), "a run that calls functions");
    expect(!blocks, "blocks of a run");
}

/* ---- runs that are closed */

static void reads(void) {
    uint8_t room[5];
    struct tried block = ptext_host_alloc(100, 8);
    for (int i = 0; i < 3; i++)
        ptext_host_read(PTEXT_INPUT, room, 5);
    ptext_host_dealloc(block.at);
}

static void closes(void) {
    crate = reads;
    for (int most = 0; most < 5; most++) {
        struct ptext_step step = {0};
        struct ptext_run *run = ptext_open(NULL, 0, &limited);
        for (int i = 0; i < most && ptext_next(run, &step) != PTEXT_ENDED; i++) {
            step.bytes = (const uint8_t *)"abcde";
            step.size = 5;
        }
        ptext_close(run);
        expect(!blocks, "a block of a run that was closed");
    }
}

/* ---- signals */

static volatile sig_atomic_t signals;

static void count_signal(int number) {
    (void)number;
    signals++;
}

static int ends[2];

/* Moves bytes through the pipe, once signals have come while the other thread waits. */
static void *move_bytes(void *is_read) {
    static uint8_t bytes[1 << 16];
    for (sig_atomic_t begun = signals; signals < begun + 5;)
        usleep(1000);
    ptrdiff_t count = is_read ? read(ends[0], bytes, sizeof bytes) : write(ends[1], "ab", 2);
    expect(count > 0, "the other end of a pipe");
    return NULL;
}

static void interrupted(int is_write) {
    pthread_t thread;
    sigset_t set;
    uint8_t byte = 0;
    sigemptyset(&set);
    sigaddset(&set, SIGALRM);
    /* (No signal comes to the other thread.) */
    pthread_sigmask(SIG_BLOCK, &set, NULL);
    expect(!pthread_create(&thread, NULL, move_bytes, is_write ? &set : NULL), "a thread");
    pthread_sigmask(SIG_UNBLOCK, &set, NULL);
    ptrdiff_t moved =
        is_write ? ptext_write_descriptor(ends, 1, &byte, 1) : ptext_read_descriptor(ends, 0, &byte, 1);
    expect(moved == 1, is_write ? "a write that signals interrupt" : "a read that signals interrupt");
    pthread_join(thread, NULL);
}

/* (`signal` lets calls go on after a signal; this does not.) */
static void interrupts(void) {
    const struct sigaction action = {.sa_handler = count_signal};
    const struct itimerval often = {{0, 1000}, {0, 1000}}, never = {{0, 0}, {0, 0}};
    expect(!sigaction(SIGALRM, &action, NULL) && !pipe(ends) && !setitimer(ITIMER_REAL, &often, NULL), "a timer");
    interrupted(0);
    fcntl(ends[1], F_SETFL, O_NONBLOCK);
    static const uint8_t block[4096];
    while (write(ends[1], block, sizeof block) > 0) {
    }
    fcntl(ends[1], F_SETFL, 0);
    interrupted(1);
    setitimer(ITIMER_REAL, &never, NULL);
}

int main(void) {
    limits();
    closes();
    interrupts();
    return failed;
}
