/* What the library asks of the program that links it: one heap, by these three functions. heap_malloc.c, heap_arena.c
 * and heap_test.c are such heaps; link one of them, or write your own. sdm_open alone takes memory, and sdm_close
 * gives it back. */
#ifndef SDM_HEAP_H
#define SDM_HEAP_H

#include <stdbool.h>
#include <stddef.h>

#ifdef __cplusplus
extern "C" {
#endif

/* What is asked for a block: whether there is memory, and where. `at` is never null: without memory it points to any
 * byte. */
struct heap_answer {
    bool is_done;
    void *at;
};

/* A new block of so many bytes. The alignment divides 16. */
struct heap_answer rattle_alloc(size_t bytes, size_t alignment);

/* Makes a block one of so many bytes, of which the first `kept` are as they were. It may move. Without memory the
 * block is as it was. */
struct heap_answer rattle_realloc(void *at, size_t kept, size_t bytes, size_t alignment);

/* Gives back what either answered. */
void rattle_dealloc(void *at);

#ifdef __cplusplus
}
#endif

#endif
