/* Stacks for the steps of the library for C (bindings/c/stream.c), as makecontext and swapcontext are of the GNU C
 * library: with any C library, and without calls of the system. What these do is not proved: read them.
 */
#include <stddef.h>

/* A stack from whose end `begins` is called, once one changes to it. (`end` is a multiple of 16, and what is below it
 * is 0, so that all is 0 that is taken from there, and no function has called this one.) */
void *ptext_begin_stack(void *end, void (*begins)(void)) {
    void (**at)(void) = end;
#ifdef __x86_64__
    at[-2] = begins;
    return at - 8;
#else
    at[-19] = begins;
    return at - 20;
#endif
}

/* Leaves this stack for another: puts on it what a function has to leave as it was, notes in *left where it ends, and
 * takes the same from the other. So it returns where that was left. (How numbers with a fraction are rounded stays as
 * it is: no run has any.) */
void ptext_change_stack(void **left, void *to);

__asm__(".text\n"
        ".balign 16\n"
        ".global ptext_change_stack\n"
        ".hidden ptext_change_stack\n"
        ".type ptext_change_stack, %function\n"
        "ptext_change_stack:\n"
#ifdef __x86_64__
        "push %rbp; push %rbx; push %r12; push %r13; push %r14; push %r15\n"
        "mov %rsp, (%rdi)\n"
        "mov %rsi, %rsp\n"
        "pop %r15; pop %r14; pop %r13; pop %r12; pop %rbx; pop %rbp\n"
#elif defined __aarch64__
        "stp x29, x30, [sp, #-160]!\n"
        "stp x19, x20, [sp, #16]; stp x21, x22, [sp, #32]; stp x23, x24, [sp, #48]\n"
        "stp x25, x26, [sp, #64]; stp x27, x28, [sp, #80]\n"
        "stp d8, d9, [sp, #96]; stp d10, d11, [sp, #112]; stp d12, d13, [sp, #128]; stp d14, d15, [sp, #144]\n"
        "mov x9, sp\n"
        "str x9, [x0]\n"
        "mov sp, x1\n"
        "ldp x19, x20, [sp, #16]; ldp x21, x22, [sp, #32]; ldp x23, x24, [sp, #48]\n"
        "ldp x25, x26, [sp, #64]; ldp x27, x28, [sp, #80]\n"
        "ldp d8, d9, [sp, #96]; ldp d10, d11, [sp, #112]; ldp d12, d13, [sp, #128]; ldp d14, d15, [sp, #144]\n"
        "ldp x29, x30, [sp], #160\n"
#else
#error "this is written for x86-64 and ARM64"
#endif
        "ret\n"
        ".size ptext_change_stack, . - ptext_change_stack\n");
