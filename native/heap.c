/* The memory of the program and of the library for C. The proofs rest on what the toolchain states of these functions,
 * in rattle/libc/src/heap.rt. It stands above each in its own words, without the notation. Nothing proves that they do
 * it: read them.
 */
#include <stdbool.h>
#include <stddef.h>
#include <stdlib.h>

_Static_assert(sizeof(size_t) == 8, "the program is compiled for addresses of 64 bits");

/* Whether there is memory, and where. The address is not null either way. */
struct tried {
    bool ok;
    void *at;
};

static char none;

static struct tried tried(void *at) {
    return (struct tried){at != NULL, at != NULL ? at : &none};
}

/* "Tries to get new memory for a value, whose size and alignment the caller passes. Nothing says when it fails." The
 * alignment divides 16, as malloc gives it, and the size is below 2^63. (malloc may return null for no bytes.) */
struct tried rattle_alloc(size_t size, size_t align) {
    return tried(malloc(size ? size : align));
}

/* "Tries to make the block at `at` one of `size` bytes, whose first `kept` bytes are as they were. It may move. Where
 * it fails, the block is as it was." */
struct tried rattle_realloc(void *at, size_t kept, size_t size, size_t align) {
    (void)kept;
    return tried(realloc(at, size ? size : align));
}

/* "Frees what either answered." */
void rattle_dealloc(void *at) {
    free(at);
}
