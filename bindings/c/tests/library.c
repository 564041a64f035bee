/* Calls of the library with bad arguments, with rooms that overlap, with too little room, with a long input, and with
 * an output file in memory. */
#define _GNU_SOURCE
#include "ptext.h"

#include <pthread.h>
#include <stdio.h>
#include <stdlib.h>
#include <string.h>
#include <sys/mman.h>

static int failed;

static void expect(int holds, const char *what) {
    if (!holds) {
        printf("FAILED: %s\n", what);
        failed = 1;
    }
}

#define WORDS(text) (const uint8_t *)(text), sizeof(text)
#define BYTES(text) (const uint8_t *)(text), sizeof(text) - 1

static struct ptext_answer answer;
static uint8_t out[64], messages[64];

static int has(const uint8_t *room, struct ptext_part part, const char *text) {
    return part.lacking == 0 && part.written == strlen(text) && !memcmp(room, text, part.written);
}

static void too_little_room(void) {
    for (size_t size = 0; size <= 6; size++) {
        size_t fits = size < 4 ? size : 4;
        memset(out, '.', sizeof out);
        uint8_t status = ptext_run(WORDS("cut\0-b\0001-3"), BYTES("abcd\n"), NULL, 0, NULL, 0, out, size, messages,
                                   sizeof messages, &answer);
        expect(status == (size < 4 ? PTEXT_ROOM : 0), "status with little room");
        expect(answer.out.written == fits && answer.out.lacking == 4 - fits, "counts with little room");
        expect(!memcmp(out, "abc\n", fits) && out[fits] == '.', "bytes with little room");
    }
    ptext_run(WORDS("cut\0-q"), NULL, 0, NULL, 0, NULL, 0, out, sizeof out, messages, 3, &answer);
    expect(answer.status == PTEXT_ROOM && answer.messages.written == 3 && answer.messages.lacking == 23, "cut message");
    ptext_run(WORDS("cut\0-q"), NULL, 0, NULL, 0, NULL, 0, NULL, 0, NULL, 0, &answer);
    expect(answer.status == PTEXT_ROOM && answer.messages.lacking == 26, "no room at all");
}

static void bad_arguments(void) {
    static const size_t fall[] = {2, 1}, past[] = {9}, gone[] = {PTEXT_NO_FILE, 2};
    static const uint8_t *paste = (const uint8_t *)"paste\0a\0b";
    uint8_t status = ptext_run(paste, 10, NULL, 0, BYTES("1\n"), fall, 2, out, 64, messages, 64, &answer);
    expect(status == PTEXT_ARGUMENTS && answer.out.written == 0, "ends that fall");
    status = ptext_run(paste, 10, NULL, 0, BYTES("1\n"), past, 1, out, 64, messages, 64, &answer);
    expect(status == PTEXT_ARGUMENTS, "an end after the bytes");
    status = ptext_run(paste, 10, NULL, 0, BYTES("1\n"), gone, 2, out, 64, messages, 64, &answer);
    expect(status == 1 && has(messages, answer.messages, "paste: a: cannot be opened\n"), "a file that is not there");
    status = ptext_run(paste, 10, NULL, 0, BYTES("1\n"), NULL, 0, out, 64, messages, 64, &answer);
    expect(status == 1 && answer.messages.written == 54, "no ends");
    status = ptext_run(WORDS("cut\0\377"), NULL, 0, NULL, 0, NULL, 0, out, 64, messages, 64, &answer);
    expect(status == 2 && has(messages, answer.messages, "ptext: a word is not UTF-8\n"), "words that are not UTF-8");
    status = ptext_run(WORDS("cut\0\377"), NULL, 0, NULL, 0, NULL, 0, out, 64, messages, 5, &answer);
    expect(status == PTEXT_ROOM && answer.messages.written == 5 && answer.messages.lacking == 22, "no room to say so");
    status = ptext_run(NULL, 0, NULL, 0, NULL, 0, NULL, 0, out, 64, messages, 64, &answer);
    expect(status == 2, "no words");
    status = ptext_run(WORDS("cut\0-b\0001"), NULL, 5, NULL, 0, NULL, 0, out, 64, messages, 64, &answer);
    expect(status == PTEXT_ARGUMENTS, "a null pointer with a size");
    status = ptext_run(WORDS("cut\0-b\0001"), out, 5, NULL, 0, NULL, 0, out, 64, messages, 64, &answer);
    expect(status == PTEXT_ARGUMENTS, "rooms that overlap");
    expect(ptext_run(NULL, 0, NULL, 0, NULL, 0, NULL, 0, out, 64, messages, 64, NULL) == PTEXT_ARGUMENTS, "no answer");
    status = ptext_names(WORDS("uniq\0in\0out"), out, 64, messages, 64, &answer);
    expect(status == 0 && answer.out.written == 3 && !memcmp(out, "in", 3) && !memcmp(messages, "out", 4), "names");
}

/* The arguments of a call. Those of both calls come first, and of these those that are written to. */
enum { ANSWER, OUT, MESSAGES, WORDS, COUNT_OF_NAMES, INPUT = COUNT_OF_NAMES, FILES, ENDS, COUNT_OF_RUN };
static const char *const called[] = {"answer", "out", "messages", "words", "input", "files", "ends"};

static const char refusal[] = "ptext: a pointer is null, or rooms overlap\n";

struct span {
    uint8_t *at;
    size_t size;
};

/* Here the spans of a call lie, with no byte between them. */
static _Alignas(16) uint8_t place[256];

/* Lays out a call that is right. */
static void lay(struct span *spans) {
    static const char words[] = "paste\0-\0f";
    static const int order[] = {WORDS, INPUT, FILES, OUT, MESSAGES, ENDS, ANSWER};
    static const size_t sizes[] = {sizeof(struct ptext_answer), 10, 64, sizeof words, 2, 2, sizeof(size_t)}, end = 2;
    uint8_t *at = place;
    for (int i = 0; i < COUNT_OF_RUN; i++) {
        spans[order[i]] = (struct span){at, sizes[order[i]]};
        at += sizes[order[i]];
    }
    memset(place, '.', sizeof place);
    memcpy(spans[WORDS].at, words, sizeof words);
    memcpy(spans[INPUT].at, "1\n", 2);
    memcpy(spans[FILES].at, "2\n", 2);
    memcpy(spans[ENDS].at, &end, sizeof end);
}

static uint8_t call(int is_run, const struct span *s) {
    struct ptext_answer *to = (struct ptext_answer *)s[ANSWER].at;
    if (!is_run)
        return ptext_names(s[WORDS].at, s[WORDS].size, s[OUT].at, s[OUT].size, s[MESSAGES].at, s[MESSAGES].size, to);
    return ptext_run(s[WORDS].at, s[WORDS].size, s[INPUT].at, s[INPUT].size, s[FILES].at, s[FILES].size,
                     (size_t *)s[ENDS].at, s[ENDS].size / sizeof(size_t), s[OUT].at, s[OUT].size, s[MESSAGES].at,
                     s[MESSAGES].size, to);
}

/* Expects that a call is refused, and that it writes nothing but the answer and `written` bytes of its message: none if
 * something is wrong with the room for it. */
static void expect_refused(int is_run, const struct span *spans, size_t written, const char *what, int i, int j) {
    struct ptext_answer to = {{9, 9}, {9, 9}, 9};
    uint8_t wanted[sizeof place];
    memcpy(wanted, place, sizeof place);
    uint8_t status = call(is_run, spans);
    if (written)
        memcpy(wanted + (spans[MESSAGES].at - place), refusal, written);
    memcpy(&to, spans[ANSWER].at, sizeof to);
    memcpy(wanted + (spans[ANSWER].at - place), &to, sizeof to);
    size_t lacking = is_run ? strlen(refusal) - written : 0;
    int is_right = status == (written && lacking ? PTEXT_ROOM : PTEXT_ARGUMENTS) && to.status == status &&
                   !to.out.written && !to.out.lacking && to.messages.written == written &&
                   to.messages.lacking == lacking;
    if (!is_right || memcmp(wanted, place, sizeof place)) {
        printf("FAILED: %s of %s: %s, %s\n", what, is_run ? "ptext_run" : "ptext_names", called[i], called[j]);
        failed = 1;
    }
}

/* Lets one span begin with the last byte of another. Those of numbers stay where they can be. */
static void join_spans(struct span *spans, int i, int j) {
    if (j == ANSWER || (j == ENDS && i != ANSWER))
        spans[i].at = spans[j].at - spans[i].size + 1;
    else
        spans[j].at = spans[i].at + (j == ENDS ? 0 : spans[i].size - 1);
}

static void overlaps(int is_run) {
    struct span spans[COUNT_OF_RUN];
    const int count = is_run ? COUNT_OF_RUN : COUNT_OF_NAMES;
    for (int i = 0; i < count; i++)
        for (int j = 0; j < count; j++) {
            if (i == j || (i > MESSAGES && j > MESSAGES))
                continue;
            lay(spans);
            join_spans(spans, i, j);
            int is_known = i == MESSAGES || j == MESSAGES;
            /* (A span that is moved may come to lie over the messages, which follow `out`.) */
            for (int k = 0; k < count; k++)
                is_known |= k != MESSAGES && spans[k].at < spans[MESSAGES].at + spans[MESSAGES].size &&
                            spans[MESSAGES].at < spans[k].at + spans[k].size;
            expect_refused(is_run, spans, is_run && !is_known ? strlen(refusal) : 0, "an overlap", i, j);
        }
}

static void bad_spans(int is_run) {
    struct span spans[COUNT_OF_RUN];
    for (int i = OUT; i < (is_run ? COUNT_OF_RUN : COUNT_OF_NAMES); i++) {
        /* (No program has memory at 2^47 or above.) */
        const struct span bad[] = {
            {NULL, 8},
            {NULL, SIZE_MAX},
            {(uint8_t *)(UINTPTR_MAX - 7), 16},
            {(uint8_t *)((uintptr_t)1 << 47), (size_t)PTRDIFF_MAX + 1},
        };
        for (size_t k = 0; k < sizeof bad / sizeof *bad; k++) {
            lay(spans);
            spans[i] = bad[k];
            expect_refused(is_run, spans, is_run && i != MESSAGES ? strlen(refusal) : 0, "a bad pointer", i, i);
        }
        lay(spans);
        spans[i] = (struct span){NULL, 0};
        if (i == FILES)
            spans[ENDS].size = 0;
        expect(call(is_run, spans) != PTEXT_ARGUMENTS, "a null pointer without a size");
    }
    lay(spans);
    spans[ANSWER].at = NULL;
    expect(call(is_run, spans) == PTEXT_ARGUMENTS, "no answer");
}

static void spans_of_calls(void) {
    struct span spans[COUNT_OF_RUN];
    lay(spans);
    struct ptext_answer *to = (struct ptext_answer *)spans[ANSWER].at;
    expect(!call(1, spans) && has(spans[OUT].at, to->out, "1\t2\n"), "spans that touch each other");
    lay(spans);
    expect(!call(0, spans) && to->out.written == 2 && !memcmp(spans[OUT].at, "f", 2), "names that touch each other");
    lay(spans);
    spans[FILES] = spans[INPUT];
    expect(!call(1, spans) && has(spans[OUT].at, to->out, "1\t1\n"), "inputs that overlap");
    lay(spans);
    spans[INPUT].at = spans[OUT].at;
    spans[MESSAGES].size = 3;
    expect_refused(1, spans, 3, "an overlap, with little room", OUT, INPUT);
    spans[MESSAGES] = (struct span){NULL, 0};
    expect(call(1, spans) == PTEXT_ROOM && to->messages.lacking == strlen(refusal), "an overlap, with no room");
    lay(spans);
    size_t many = SIZE_MAX / sizeof(size_t) + 2;
    ptext_run(spans[WORDS].at, spans[WORDS].size, NULL, 0, NULL, 0, (size_t *)spans[ENDS].at, many, out, 64, messages,
              64, &answer);
    /* (Room that large overlaps the messages, unless they come before it.) */
    expect(answer.messages.written + answer.messages.lacking == strlen(refusal), "more ends than there are addresses");
    for (int is_run = 0; is_run < 2; is_run++) {
        overlaps(is_run);
        bad_spans(is_run);
    }
}

static void *many_calls(void *text) {
    for (int i = 0; i < 2000; i++) {
        uint8_t room[64], said[64];
        struct ptext_answer it;
        ptext_run(WORDS("tr\0a-z\0A-Z"), text, 5, NULL, 0, NULL, 0, room, sizeof room, said, sizeof said, &it);
        if (it.status || it.out.written != 5 || room[0] != ((const char *)text)[0] - 32)
            return text;
    }
    return NULL;
}

static void two_threads(void) {
    pthread_t threads[2];
    static char texts[2][6] = {"abcd\n", "wxyz\n"};
    for (int i = 0; i < 2; i++)
        expect(!pthread_create(&threads[i], NULL, many_calls, texts[i]), "a thread");
    for (int i = 0; i < 2; i++) {
        void *wrong;
        expect(!pthread_join(threads[i], &wrong) && !wrong, "calls in two threads");
    }
}

#ifndef SANITIZED
/* An input of 5 GiB. (Its pages are only read, so all are one page of zeros in memory. ThreadSanitizer notes each.) */
static void a_long_input(void) {
    const size_t size = (size_t)5 << 30;
    uint8_t *input = mmap(NULL, size, PROT_READ, MAP_PRIVATE | MAP_ANONYMOUS | MAP_NORESERVE, -1, 0);
    if (input == MAP_FAILED) {
        expect(0, "5 GiB of addresses");
        return;
    }
    uint8_t status = ptext_run(WORDS("tr\0-d\0\\0"), input, size, NULL, 0, NULL, 0, out, 64, messages, 64, &answer);
    expect(status == 0 && has(out, answer.out, ""), "an input of 5 GiB");
    munmap(input, size);
}

/* The greatest request for memory. (Tests link the calls of malloc and realloc to these two.) */
static size_t greatest;

void *__real_malloc(size_t size);
void *__wrap_malloc(size_t size);
void *__wrap_malloc(size_t size) {
    greatest = size > greatest ? size : greatest;
    return __real_malloc(size);
}

void *__real_realloc(void *at, size_t size);
void *__wrap_realloc(void *at, size_t size);
void *__wrap_realloc(void *at, size_t size) {
    greatest = size > greatest ? size : greatest;
    return __real_realloc(at, size);
}

/* An output file of 2 MiB, which is given no more than twice its size. */
static void a_file_in_memory(void) {
    static uint8_t lines[2 << 20], room[2 << 20];
    for (size_t i = 0; i < sizeof lines; i++)
        lines[i] = (uint8_t)(i % 2 ? '\n' : i / 2 % 2 + 'a');
    const size_t end = sizeof lines;
    uint8_t status = ptext_run(WORDS("uniq\0in\0out"), NULL, 0, lines, end, &end, 1, room, end, messages, 64, &answer);
    expect(status == 0 && answer.out.written == end && !memcmp(room, lines, end), "an output file of 2 MiB");
    expect(greatest >= end && greatest <= 2 * end, "the memory of an output file");
}
#endif

int main(void) {
    too_little_room();
#ifndef SANITIZED
    a_long_input();
    a_file_in_memory();
#endif
    bad_arguments();
    spans_of_calls();
    two_threads();
    if (!failed)
        puts("library: all calls as expected");
    return failed;
}
