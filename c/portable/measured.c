/* Beside c/measure.c, where it measures the library as C: what that library took of its memory, and of the stack that it
 * has in there. Both begin with zeros. */
#include "heap_arena.h"
#include "instance.h"

#include <stdio.h>

enum { STACK_BYTES = 65536 }; /* of the module, from its first byte on */

size_t heap_arena_most(void) {
    const uint8_t *memory = sdm_module.w2c_memory.data;
    size_t lowest = 0;
    while (lowest < STACK_BYTES && memory[lowest] == 0)
        lowest++;
    printf("the module's own stack was used by %zu bytes of %d\n", STACK_BYTES - lowest, STACK_BYTES);
    return sdm_module.w2c_memory.size;
}
