/*
 * What compare.c needs of a system, for x86-64 Linux without a C library, so that a compiler and a linker are all it takes: a start, an end, lines on
 * standard output, and the functions of <string.h> that compilers call by themselves.
 */
#include "start.h"

/* or gcc makes calls of memset out of memset's own loop */
#if defined __GNUC__ && !defined __clang__
#pragma GCC optimize("no-tree-loop-distribute-patterns")
#endif

static long call_system(long number, long a, long b, long c) {
    long answer;
    __asm__ volatile("syscall" : "=a"(answer) : "a"(number), "D"(a), "S"(b), "d"(c) : "rcx", "r11", "memory");
    return answer;
}

void leave_program(int status) {
    for (;;) call_system(231, status, 0, 0);
}

void put_bytes(const char *text, size_t count) {
    while (count) {
        long wrote = call_system(1, 1, (long)text, (long)count);
        if (wrote <= 0) leave_program(2);
        text += wrote;
        count -= (size_t)wrote;
    }
}

void *memset(void *to, int byte, size_t count) {
    unsigned char *at = to;
    uint64_t word = 0x0101010101010101u * (unsigned char)byte;
    for (; count >= 8; count -= 8, at += 8) __builtin_memcpy(at, &word, 8);
    for (; count; count--) *at++ = (unsigned char)byte;
    return to;
}

void *memcpy(void *to, const void *from, size_t count) {
    unsigned char *at = to;
    const unsigned char *of = from;
    uint64_t word;
    for (; count >= 8; count -= 8, at += 8, of += 8) {
        __builtin_memcpy(&word, of, 8);
        __builtin_memcpy(at, &word, 8);
    }
    for (; count; count--) *at++ = *of++;
    return to;
}

void *memmove(void *to, const void *from, size_t count) {
    unsigned char *at = to;
    const unsigned char *of = from;
    if (at <= of || at >= of + count) return memcpy(to, from, count);
    while (count--) at[count] = of[count];
    return to;
}

int memcmp(const void *a, const void *b, size_t count) {
    const unsigned char *x = a, *y = b;
    uint64_t v, w;
    for (; count >= 8; count -= 8, x += 8, y += 8) {
        __builtin_memcpy(&v, x, 8);
        __builtin_memcpy(&w, y, 8);
        if (v != w) break;
    }
    for (; count; count--, x++, y++)
        if (*x != *y) return *x < *y ? -1 : 1;
    return 0;
}

/* what compilers make of a memcmp that only asks whether the two are the same */
int bcmp(const void *a, const void *b, size_t count) { return memcmp(a, b, count); }

/* the stack as the kernel leaves it: the number of words, then the words */
void start_program(long *stack) { leave_program(run_program((int)stack[0], (char **)(stack + 1))); }

__asm__(".globl _start\n_start:\n    xor %ebp, %ebp\n    mov %rsp, %rdi\n    and $-16, %rsp\n    call start_program\n    hlt\n");
