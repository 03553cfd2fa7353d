/* A host with memory in an array of fixed size, whose program ends where the code traps. */
#include "host.h"

_Noreturn void abort(void); /* of the C library, whose headers a bare target may lack */

/* The size of the array. What sdm_open takes of it: docs/PROCESSORS.md. */
#ifndef SDM_MEMORY_BYTES
#define SDM_MEMORY_BYTES (32u << 20)
#endif

static unsigned char memory[SDM_MEMORY_BYTES];

struct sdm_memory sdm_memory(void) {
    struct sdm_memory all = {memory, sizeof memory};
    return all;
}

void sdm_trapped(const char *why) {
    (void)why;
    abort();
}
