/* Prints the most stack that each call of calls.c took below its caller, over some arguments. */
#include <stddef.h>
#include <stdint.h>
#include <stdio.h>

enum { PAINT = 0xa5, BYTES = 1 << 16 };

int chain(int), tail(int), aligned(int), choose(int);
int elsewhere(int n) { return n; }
void *rattle_alloc(uint64_t bytes) { return (void *)bytes; }
void rattle_dealloc(void *at) { (void)at; }

static uint8_t stack[BYTES] __attribute__((aligned(64)));

static size_t used(int (*call)(int), int n) {
    size_t unused = 0;
    for (size_t i = 0; i < BYTES; i++)
        stack[i] = PAINT;
    __asm__ volatile("mov %%rsp, %%r12\n mov %1, %%rsp\n call *%2\n mov %%r12, %%rsp"
                     : "+D"(n)
                     : "r"(stack + BYTES), "r"(call)
                     : "r12", "rax", "rcx", "rdx", "rsi", "r8", "r9", "r10", "r11", "memory", "cc");
    while (unused < BYTES && stack[unused] == PAINT)
        unused++;
    return BYTES - unused;
}

static void tell(const char *name, int (*call)(int)) {
    size_t most = 0;
    for (int n = 0; n < 9; n++) {
        size_t now = used(call, n);
        most = now > most ? now : most;
    }
    printf("%s %zu\n", name, most);
}

int main(void) {
    tell("chain", chain);
    tell("tail", tail);
    tell("aligned", aligned);
    tell("choose", choose);
    return 0;
}
