// Refuses one request for memory of the program that it is loaded into: the one with the number that REFUSED gives,
// counted from 1. Once it did, the file that REFUSED_MARK names is there. At the end the file that COUNTED names has the
// most bytes that the program had at a time.
// cc -shared -fPIC -o refusing.so refusing.c; LD_PRELOAD=refusing.so REFUSED=3 REFUSED_MARK=mark PROGRAM
#include <errno.h>
#include <fcntl.h>
#include <malloc.h>
#include <stddef.h>
#include <stdio.h>
#include <stdlib.h>
#include <unistd.h>

// The calls of glibc that those below replace.
void *__libc_malloc(size_t);
void *__libc_calloc(size_t, size_t);
void *__libc_realloc(void *, size_t);
void *__libc_memalign(size_t, size_t);
void __libc_free(void *);

// How many bytes the program has, and the most that it had. (One thread asks.)
static size_t held, peak;

static void *counted(void *made) {
    held += made ? malloc_usable_size(made) : 0;
    peak = held > peak ? held : peak;
    return made;
}

// (A block that is mapped would count as whole pages.)
__attribute__((constructor)) static void prepare(void) { mallopt(M_MMAP_THRESHOLD, 1 << 25); }

__attribute__((destructor)) static void report(void) {
    const char *name = getenv("COUNTED");
    FILE *file = name ? fopen(name, "w") : NULL;
    if (file) {
        fprintf(file, "%zu\n", peak);
        fclose(file);
    }
}

static int is_refused(void) {
    static long left = -1;
    if (left == -1) {
        const char *number = getenv("REFUSED");
        left = number ? atol(number) : 0;
    }
    if (left == 0 || --left > 0) {
        return 0;
    }
    const char *mark = getenv("REFUSED_MARK");
    if (mark) {
        close(open(mark, O_CREAT | O_WRONLY, 0644));
    }
    errno = ENOMEM;
    return 1;
}

void *malloc(size_t size) { return is_refused() ? NULL : counted(__libc_malloc(size)); }

void *calloc(size_t count, size_t size) { return is_refused() ? NULL : counted(__libc_calloc(count, size)); }

void *realloc(void *old, size_t size) {
    if (is_refused()) {
        return NULL;
    }
    // (While bytes are moved the program has both.)
    size_t before = old ? malloc_usable_size(old) : 0;
    void *made = counted(__libc_realloc(old, size));
    held -= made ? before : 0;
    return made;
}

void *aligned_alloc(size_t align, size_t size) { return is_refused() ? NULL : counted(__libc_memalign(align, size)); }

void free(void *old) {
    held -= old ? malloc_usable_size(old) : 0;
    __libc_free(old);
}

int posix_memalign(void **made, size_t align, size_t size) {
    if (is_refused()) {
        return ENOMEM;
    }
    *made = counted(__libc_memalign(align, size));
    return *made ? 0 : ENOMEM;
}
