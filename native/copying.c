/* memcpy and memmove for a C library whose own are slow for a few bytes, as those of musl for x86-64, which halve the
 * speed of the program on short lines. The compiler makes vector instructions of these copies of fixed size. (It must
 * not make calls of memcpy of them: -fno-builtin -fno-tree-loop-distribute-patterns.) tests/copying.c tries them.
 */
#include <stddef.h>
#include <stdint.h>

typedef struct {
    uint64_t parts[2];
} __attribute__((packed, may_alias)) b16;
typedef uint64_t __attribute__((aligned(1), may_alias)) b8;
typedef uint32_t __attribute__((aligned(1), may_alias)) b4;
typedef uint16_t __attribute__((aligned(1), may_alias)) b2;
typedef unsigned char b1;

/* Copies the first and the last bytes of a piece by two copies of one size, which may overlap. All is loaded before
 * anything is stored. */
#define COPY_ENDS(type, to, from, size)                                                                                \
    do {                                                                                                               \
        type first = *(const type *)(from), last = *(const type *)((from) + (size) - sizeof(type));                    \
        *(type *)(to) = first;                                                                                         \
        *(type *)((to) + (size) - sizeof(type)) = last;                                                                \
    } while (0)

/* Moves up to 64 bytes. */
static inline void move_short(b1 *to, const b1 *from, size_t size) {
    if (size >= 32) {
        b16 a = *(const b16 *)from, b = *(const b16 *)(from + 16);
        COPY_ENDS(b16, to + size - 32, from + size - 32, 32);
        *(b16 *)to = a;
        *(b16 *)(to + 16) = b;
    } else if (size >= 16) {
        COPY_ENDS(b16, to, from, size);
    } else if (size >= 8) {
        COPY_ENDS(b8, to, from, size);
    } else if (size >= 4) {
        COPY_ENDS(b4, to, from, size);
    } else if (size >= 2) {
        COPY_ENDS(b2, to, from, size);
    } else if (size == 1) {
        *to = *from;
    }
}

/* Moves more than 64 bytes from the first on. The last 32 are loaded first, since they may be overwritten. */
static inline void move_forwards(b1 *to, const b1 *from, size_t size) {
    b16 y = *(const b16 *)(from + size - 32), z = *(const b16 *)(from + size - 16);
    for (size_t at = 0; at + 32 < size; at += 32)
        COPY_ENDS(b16, to + at, from + at, 32);
    *(b16 *)(to + size - 32) = y;
    *(b16 *)(to + size - 16) = z;
}

/* Moves more than 64 bytes from the last on. */
static inline void move_backwards(b1 *to, const b1 *from, size_t size) {
    b16 y = *(const b16 *)from, z = *(const b16 *)(from + 16);
    for (size_t at = size; at > 32; at -= 32)
        COPY_ENDS(b16, to + at - 32, from + at - 32, 32);
    *(b16 *)to = y;
    *(b16 *)(to + 16) = z;
}

/* As the C standard has it: the bytes at `to` become those that were at `from`, and the two may overlap. */
void *memmove(void *to, const void *from, size_t size) {
    if (size <= 64)
        move_short(to, from, size);
    else if ((uintptr_t)to - (uintptr_t)from >= size)
        move_forwards(to, from, size);
    else
        move_backwards(to, from, size);
    return to;
}

/* As the C standard has it, for two that do not overlap. */
void *memcpy(void *restrict to, const void *restrict from, size_t size) {
    return memmove(to, from, size);
}
