/* What the object file of the program asks of C beside the C library and heap.c: errno, the words, and the call of
 * `main`. With these it is linked by any C compiler, for each processor for which it was compiled, and with any C
 * library; with -DBY_NAME, it is a tool by its own name. (The toolchain's archives, c/liblibc_c.a and c/libos_c.a, are
 * for x86-64 and the GNU C library only.)
 *
 * The proofs rest on what the toolchain states of these functions, in rattle/os/src/c.rt. It stands above each in its
 * own words, without the notation. Nothing proves that they do it: read them.
 */
#define _GNU_SOURCE
#include <errno.h>
#include <signal.h>
#include <stddef.h>
#include <stdint.h>
#include <string.h>
#include <unistd.h>

/* ---- errno, of which nothing is stated */

int rattle_errno(void) {
    return errno;
}

void rattle_set_errno(int error) {
    errno = error;
}

/* ---- the words of the command line. The program leaves out the first, by which it was called. */

#ifdef BY_NAME
#define ADDED 1
#else
#define ADDED 0
#endif

static char **words;
static size_t count;

/* "Puts argument `number` at the start of `into` and answers its length, -1 where there is no such argument, or -2
 * where it does not fit, and then `into` is full." */
ptrdiff_t rattle_arg(size_t number, uint8_t *into, size_t room) {
    if (number >= count)
        return -1;
    const char *word = words[number ? number - ADDED : 0];
    size_t size = strlen(word);
    memcpy(into, word, size < room ? size : room);
    return size <= room ? (ptrdiff_t)size : -2;
}

/* The `main` of the object file takes no arguments. By -Wl,--wrap=main this is called first. */
int __real_main(void);

int __wrap_main(int given, char **all) {
    words = all;
    count = given > 0 ? (size_t)given + ADDED : 0;
#ifdef BY_NAME
    /* The last part of the name by which it was called is the first word, so that it names the tool. */
    char *slash = given > 0 ? strrchr(all[0], '/') : NULL;
    if (slash)
        all[0] = slash + 1;
#endif
    return __real_main();
}

/* ---- what the object file calls by the names that only the GNU C library has */

#ifndef __GLIBC__
/* At the start SIGPIPE is ignored, so that a write to a closed pipe fails. */
void (*__sysv_signal(int number, void (*does)(int)))(int) {
    return signal(number, does);
}

ssize_t __write(int descriptor, const void *bytes, size_t size) {
    return write(descriptor, bytes, size);
}

#ifdef __x86_64__
#include <cpuid.h>

/* What the processor has: leaf 0 is CPUID 1, and leaf 2 is CPUID 0x80000001. (All that x86-64-v2 needs can be used
 * where it is found.) */
struct cpuid_feature {
    unsigned found[4], usable[4];
};

const struct cpuid_feature *__x86_get_cpuid_feature_leaf(unsigned leaf) {
    static struct cpuid_feature feature;
    unsigned *at = feature.found, number = leaf == 0 ? 1 : 0x80000001;
    if ((leaf != 0 && leaf != 2) || !__get_cpuid(number, &at[0], &at[1], &at[2], &at[3]))
        memset(at, 0, sizeof feature.found);
    memcpy(feature.usable, at, sizeof feature.usable);
    return &feature;
}
#endif
#endif
