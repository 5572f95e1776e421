// A call on a stack of its own, painted before it: how deep the call wrote. For x86-64 and the System V calling
// convention, which the static library has.
#include <stddef.h>
#include <stdint.h>
#include <stdio.h>
#include <stdlib.h>
#include <sys/mman.h>

// How many bytes the stack has, and the paint. A call that needs more than that meets the page below it and ends the
// program.
#define ROOM ((size_t)1 << 20)
#define PAINT 0x5ac396e17d2b48f3u

// Calls `function` with the stack pointer at `top`, which is a multiple of 16. Six words are in registers, and `pushed`
// more are on the stack, as the convention says. So the arguments on the stack and the return address are the first
// words that are written, and no word of the caller is.
uint64_t call_at(void *top, void *function, const uint64_t *words, size_t pushed);
__asm__(".text\n"
        ".globl call_at\n"
        ".hidden call_at\n"
        "call_at:\n"
        "    push %rbp\n"
        "    mov %rsp, %rbp\n"
        "    mov %rdi, %rsp\n"
        "    mov %rsi, %rax\n"
        "    mov %rdx, %r10\n"
        "    test $1, %cl\n"
        "    jz 1f\n"
        "    sub $8, %rsp\n"
        "1:  test %rcx, %rcx\n"
        "    jz 2f\n"
        "    push 40(%r10,%rcx,8)\n"
        "    dec %rcx\n"
        "    jmp 1b\n"
        "2:  mov (%r10), %rdi\n"
        "    mov 8(%r10), %rsi\n"
        "    mov 16(%r10), %rdx\n"
        "    mov 24(%r10), %rcx\n"
        "    mov 32(%r10), %r8\n"
        "    mov 40(%r10), %r9\n"
        "    call *%rax\n"
        "    mov %rbp, %rsp\n"
        "    pop %rbp\n"
        "    ret\n");

static uint64_t *stack_low, *stack_top;

static void paint_all(void) {
    char *room = mmap(NULL, ROOM + 4096, PROT_READ | PROT_WRITE, MAP_PRIVATE | MAP_ANONYMOUS, -1, 0);
    if (room == MAP_FAILED || mprotect(room, 4096, PROT_NONE) != 0) {
        fprintf(stderr, "stack: failed: no room for a stack\n");
        exit(1);
    }
    stack_low = (uint64_t *)(room + 4096);
    stack_top = (uint64_t *)(room + 4096 + ROOM);
    for (uint64_t *word = stack_low; word < stack_top; word++) *word = PAINT;
}

// How many bytes lie between the top and the deepest word that lost its paint.
static size_t depth(void) {
    const uint64_t *word = stack_low;
    while (word < stack_top && *word == PAINT) word++;
    return (size_t)((const char *)stack_top - (const char *)word);
}
