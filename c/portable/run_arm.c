/* Plays the journeys of journeys.c on a bare 32-bit ARM, with nothing but memory and a host that listens (semihosting):
 *
 *     qemu-system-arm -M virt -cpu cortex-a15 -nic none -nographic -semihosting -kernel arm.elf */
#include "run_packed.h"

extern const uint8_t sdm_journeys[];
extern const size_t sdm_journeys_bytes;

enum { WRITE_CHARACTER = 0x03, EXIT = 0x18, ENDED = 0x20026, FAILED = 0x20023 };

static uint8_t stack[1 << 18];

int putchar(int character);
int raise(int signal);
void run(void);
void abort(void);
void *stack_top = stack + sizeof stack;

/* Asks the host for something. */
static int ask(int what, uintptr_t with) {
    register int word __asm__("r0") = what;
    register uintptr_t more __asm__("r1") = with;
    __asm__ volatile("svc #0x123456" : "+r"(word) : "r"(more) : "memory");
    return word;
}

int putchar(int character) {
    char written = (char)character;
    ask(WRITE_CHARACTER, (uintptr_t)&written);
    return character;
}

_Noreturn static void end(uintptr_t how) {
    for (;;)
        ask(EXIT, how);
}

void abort(void) {
    static const char told[] = "trapped\n";
    for (const char *at = told; *at != 0; at++)
        putchar(*at);
    end(FAILED);
}

/* Asked for by the compiler's own library where a number is divided by 0, which the code tests before. */
int raise(int signal) {
    (void)signal;
    abort();
    return 0;
}

void run(void) { end(run_packed(sdm_journeys, sdm_journeys_bytes) ? ENDED : FAILED); }

/* Sets the stack, switches the floating-point unit on, and runs. */
__asm__(".global _start\n_start:\n"
        "    ldr r0, =stack_top\n    ldr sp, [r0]\n"
        "    mrc p15, 0, r0, c1, c0, 2\n    orr r0, r0, #0xf00000\n    mcr p15, 0, r0, c1, c0, 2\n    isb\n"
        "    mov r0, #0x40000000\n    vmsr fpexc, r0\n    b run\n");
