/* Calls ptext.c alone: the calls of the proved crate, which are here in its place, get each pointer with its size, and
 * no null pointer, since a slice has an address even if it has no bytes. And lists of words. */
#include "ptext.h"

#include <stdio.h>
#include <string.h>

static int failed;

static void expect(int holds, const char *what) {
    if (!holds) {
        printf("FAILED: %s\n", what);
        failed = 1;
    }
}

#define MOST 6

/* What the crate was called with last. */
static struct span {
    const void *at;
    size_t size;
} got[MOST];

void ptext_run_in_memory(const uint8_t *words, size_t words_size, const uint8_t *input, size_t input_size,
                         const uint8_t *files, size_t files_size, const size_t *ends, size_t ends_count,
                         uint8_t *out, size_t out_room, uint8_t *messages, size_t messages_room,
                         struct ptext_answer *answer) {
    const struct span spans[MOST] = {{words, words_size}, {input, input_size}, {files, files_size},
                                     {ends, ends_count}, {out, out_room}, {messages, messages_room}};
    memcpy(got, spans, sizeof spans);
    *answer = (struct ptext_answer){{0, 0}, {0, 0}, 2};
}

void ptext_names_in_memory(const uint8_t *words, size_t words_size, uint8_t *names, size_t names_room,
                           uint8_t *output, size_t output_room, struct ptext_answer *answer) {
    const struct span spans[] = {{words, words_size}, {names, names_room}, {output, output_room}};
    memcpy(got, spans, sizeof spans);
    *answer = (struct ptext_answer){{0, 0}, {0, 0}, 1};
}

/* Expects that these spans were handed on, or some address where there was none. */
static void handed_on(const struct span *spans, size_t count, const char *what) {
    for (size_t i = 0; i < count; i++) {
        expect(got[i].size == spans[i].size, what);
        expect(spans[i].at ? got[i].at == spans[i].at : got[i].at != NULL, what);
        expect((uintptr_t)got[i].at % sizeof(size_t) == 0, "what is not aligned");
    }
}

static void calls(const struct span *s) {
    struct ptext_answer answer = {{9, 9}, {9, 9}, 9};
    expect(ptext_run(s[0].at, s[0].size, s[1].at, s[1].size, s[2].at, s[2].size, s[3].at, s[3].size, (uint8_t *)s[4].at,
                     s[4].size, (uint8_t *)s[5].at, s[5].size, &answer) == 2, "the status of a run");
    handed_on(s, MOST, "a run");
    expect(ptext_names(s[0].at, s[0].size, (uint8_t *)s[1].at, s[1].size, (uint8_t *)s[2].at, s[2].size, &answer) == 1,
           "the status of names");
    handed_on(s, 3, "names");
}

static void words(void) {
    char *const none[] = {NULL}, *const some[] = {"cut", "", "-f", NULL};
    uint8_t into[12];
    for (size_t room = 0; room <= sizeof into; room++) {
        memset(into, '.', sizeof into);
        expect(ptext_words(some, into, room) == 8, "the size of words");
        size_t fit = room < 4 ? 0 : room < 5 ? 4 : room < 8 ? 5 : 8;
        expect(!memcmp(into, "cut\0\0-f", fit) && into[fit] == '.', "words with little room");
    }
    expect(!ptext_words(none, into, 12) && !ptext_words(NULL, into, 12), "no words");
    expect(ptext_words(some, NULL, 12) == 8, "no room");
}

int main(void) {
    static size_t place[MOST][4];
    const struct span nothing[MOST] = {{NULL, 0}};
    struct span sizes[MOST];
    for (size_t i = 0; i < MOST; i++)
        sizes[i] = (struct span){place[i], 4 - i % 3};
    sizes[1].size = 5;
    sizes[2].size = 6;
    sizes[4].size = 7;
    calls(nothing);
    calls(sizes);
    words();
    return failed;
}
