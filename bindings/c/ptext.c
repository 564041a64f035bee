/* Checks the pointers of a call, and hands it to the proved crate `ptrunc`, which takes no null pointer. */
#include "ptext.h"

#include <string.h>

/* The calls of the crate. A slice is a pointer and a length. */
void ptext_run_in_memory(const uint8_t *words, size_t words_size, const uint8_t *input, size_t input_size,
                         const uint8_t *files, size_t files_size, const size_t *ends, size_t ends_count,
                         uint8_t *out, size_t out_room, uint8_t *messages, size_t messages_room,
                         struct ptext_answer *answer);
void ptext_names_in_memory(const uint8_t *words, size_t words_size, uint8_t *names, size_t names_room,
                           uint8_t *output, size_t output_room, struct ptext_answer *answer);

size_t ptext_words(char *const *words, uint8_t *into, size_t room) {
    size_t size = 0;
    for (; words && *words; words++) {
        size_t length = strlen(*words) + 1;
        if (into && size + length <= room)
            memcpy(into + size, *words, length);
        size += length;
    }
    return size;
}

/* No bytes, for null pointers with size 0. Nothing is written there. */
static size_t nothing;

/* The bytes that a pointer leads to. */
struct span {
    const void *at;
    size_t size;
};

static int is_span(struct span it) {
    return it.size == 0 || (it.at && it.size <= PTRDIFF_MAX && it.size <= UINTPTR_MAX - (uintptr_t)it.at);
}

/* The address of the last byte, or the last address. */
static uintptr_t last(struct span it) {
    uintptr_t from = (uintptr_t)it.at;
    return it.size - 1 <= UINTPTR_MAX - from ? from + (it.size - 1) : UINTPTR_MAX;
}

static int overlap(struct span a, struct span b) {
    return a.at && b.at && a.size && b.size && (uintptr_t)a.at <= last(b) && (uintptr_t)b.at <= last(a);
}

/* Whether the first `written` spans, which are written to, overlap none of the others. */
static int are_apart(const struct span *spans, size_t written, size_t count) {
    for (size_t i = 0; i < count; i++)
        if (!is_span(spans[i]))
            return 0;
    for (size_t i = 0; i < written; i++)
        for (size_t j = i + 1; j < count; j++)
            if (overlap(spans[i], spans[j]))
                return 0;
    return 1;
}

static const void *given(const void *at) {
    return at ? at : &nothing;
}

/* Where the messages are in `spans` of ptext_run. */
#define MESSAGES 2

/* Whether the messages overlap no other span. */
static int can_be_written(const struct span *spans, size_t count) {
    for (size_t i = 0; i < count; i++)
        if (i != MESSAGES && overlap(spans[i], spans[MESSAGES]))
            return 0;
    return is_span(spans[MESSAGES]);
}

/* Says what is wrong with the arguments of ptext_run, in the room for messages if `is_sound`. If that is too little, a
 * call with enough gets the status, as for what the crate refuses. */
static uint8_t refused(uint8_t *messages, size_t room, int is_sound, struct ptext_answer *answer) {
    static const char text[] = "ptext: a pointer is null, or rooms overlap\n";
    size_t size = sizeof text - 1, written = !is_sound ? 0 : room < size ? room : size;
    if (written)
        memcpy(messages, text, written);
    uint8_t status = is_sound && written < size ? PTEXT_ROOM : PTEXT_ARGUMENTS;
    *answer = (struct ptext_answer){{0, 0}, {written, size - written}, status};
    return status;
}

uint8_t ptext_run(const uint8_t *words, size_t words_size, const uint8_t *input, size_t input_size,
                  const uint8_t *files, size_t files_size, const size_t *ends, size_t ends_count,
                  uint8_t *out, size_t out_room, uint8_t *messages, size_t messages_room,
                  struct ptext_answer *answer) {
    const struct span spans[] = {
        {answer, sizeof *answer}, {out, out_room}, {messages, messages_room}, {words, words_size},
        {input, input_size}, {files, files_size},
        {ends, ends_count <= PTRDIFF_MAX / sizeof *ends ? ends_count * sizeof *ends : SIZE_MAX},
    };
    const size_t count = sizeof spans / sizeof *spans;
    if (!answer)
        return PTEXT_ARGUMENTS;
    if (!are_apart(spans, 3, count))
        return refused(messages, messages_room, can_be_written(spans, count), answer);
    ptext_run_in_memory(given(words), words_size, given(input), input_size, given(files), files_size, given(ends),
                        ends_count, (uint8_t *)given(out), out_room, (uint8_t *)given(messages), messages_room, answer);
    return answer->status;
}

uint8_t ptext_names(const uint8_t *words, size_t words_size, uint8_t *names, size_t names_room,
                    uint8_t *output, size_t output_room, struct ptext_answer *answer) {
    const struct span spans[] = {
        {answer, sizeof *answer}, {names, names_room}, {output, output_room}, {words, words_size},
    };
    if (!answer)
        return PTEXT_ARGUMENTS;
    if (!are_apart(spans, 3, sizeof spans / sizeof *spans)) {
        *answer = (struct ptext_answer){{0, 0}, {0, 0}, PTEXT_ARGUMENTS};
        return PTEXT_ARGUMENTS;
    }
    ptext_names_in_memory(given(words), words_size, (uint8_t *)given(names), names_room, (uint8_t *)given(output),
                          output_room, answer);
    return answer->status;
}
