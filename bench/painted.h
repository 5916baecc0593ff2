/* How much stack a function needs, measured: it runs on a stack of its own, painted with a pattern, and what is no longer painted afterwards
 * was written. For x86-64 and a compiler that has the assembler of gcc. Not for use in two threads at once. */
#ifndef PAINTED_H
#define PAINTED_H

#include <stddef.h>
#include <stdint.h>
#include <string.h>

#define PAINTED_BYTES (64 * 1024)
#define PAINT 0xa5

static _Alignas(16) unsigned char painted_stack[PAINTED_BYTES];

/* Calls f with the stack pointer at the end of the painted stack; the callee keeps rbx and gives it back. */
static void on_painted_stack(void (*f)(void)) {
    unsigned char *top = painted_stack + PAINTED_BYTES;
    __asm__ volatile("movq %%rsp, %%rbx\n\t"
                     "movq %[top], %%rsp\n\t"
                     "call *%[f]\n\t"
                     "movq %%rbx, %%rsp"
                     : [top] "+r"(top), [f] "+r"(f)
                     :
                     : "rbx", "rax", "rcx", "rdx", "rsi", "rdi", "r8", "r9", "r10", "r11", "memory", "cc", "xmm0", "xmm1", "xmm2", "xmm3",
                       "xmm4", "xmm5", "xmm6", "xmm7", "xmm8", "xmm9", "xmm10", "xmm11", "xmm12", "xmm13", "xmm14", "xmm15");
}

/* The bytes of stack that f wrote, f's return address and its own frame included. A call that needs all of it, or more, is not found out. */
static size_t painted_stack_used(void (*f)(void)) {
    memset(painted_stack, PAINT, sizeof painted_stack);
    on_painted_stack(f);
    size_t untouched = 0;
    while (untouched < PAINTED_BYTES && painted_stack[untouched] == PAINT) {
        untouched++;
    }
    return PAINTED_BYTES - untouched;
}

#endif
