/* What a program can ask the heap of heap_arena.c beside what the library asks. */
#ifndef SDM_HEAP_ARENA_H
#define SDM_HEAP_ARENA_H

#include <stddef.h>

#ifdef __cplusplus
extern "C" {
#endif

/* The bytes of the arena, from its start on, that were ever in use: so large an arena would have been enough so far. */
size_t heap_arena_most(void);

#ifdef __cplusplus
}
#endif

#endif
