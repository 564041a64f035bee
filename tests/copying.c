/* Tests native/copying.c: moves of each size up to 200 bytes over each distance up to 210, and many larger ones, against
 * moves byte by byte. Compiled as it is for the program:
 *   cc -O3 -fno-builtin -fno-tree-loop-distribute-patterns -o copying tests/copying.c && ./copying
 */
#define memmove own_memmove
#define memcpy own_memcpy
#include "../native/copying.c"

#include <stdio.h>

enum { ROOM = 16384 };
static b1 start[ROOM], moved[ROOM], wanted[ROOM];
static unsigned long tried;

static unsigned next_random(void) {
    static uint64_t state = 1;
    state = state * 6364136223846793005u + 1442695040888963407u;
    return (unsigned)(state >> 33);
}

/* Moves bytes within one room. Returns whether all bytes of the room are as they should be. */
static int is_right(size_t to, size_t from, size_t size) {
    for (size_t i = 0; i < ROOM; i++)
        moved[i] = wanted[i] = start[i];
    for (size_t i = 0; i < size; i++)
        wanted[to + i] = start[from + i];
    size_t apart = to > from ? to - from : from - to;
    void *answer = (apart >= size && next_random() % 2 ? memcpy : memmove)(moved + to, moved + from, size);
    int right = answer == moved + to;
    for (size_t i = 0; i < ROOM; i++)
        right &= moved[i] == wanted[i];
    tried++;
    if (!right)
        printf("FAILED: %zu bytes from %zu to %zu\n", size, from, to);
    return right;
}

int main(void) {
    for (size_t i = 0; i < ROOM; i++)
        start[i] = (b1)next_random();
    for (size_t size = 0; size <= 200; size++)
        for (size_t distance = 0; distance <= 420; distance++) {
            size_t from = 1000 + next_random() % 64;
            if (!is_right(from + distance - 210, from, size))
                return 1;
        }
    for (int i = 0; i < 20000; i++) {
        size_t size = next_random() % 5000, from = next_random() % 5000, to = next_random() % 5000;
        if (!is_right(to, from, size))
            return 1;
    }
    printf("%lu moves of bytes as wanted\n", tried);
    return 0;
}
