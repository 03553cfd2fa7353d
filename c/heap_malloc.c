/* A heap over malloc, whose blocks are aligned to 16 bytes on the target. As safe for several threads as malloc is. */
#include "heap.h"

#include <stdalign.h>
#include <stdlib.h>

#ifdef __cplusplus
static_assert(alignof(max_align_t) >= 16, "malloc aligns to 16");
#else
_Static_assert(alignof(max_align_t) >= 16, "malloc aligns to 16");
#endif

static char nowhere;

static struct heap_answer answer(void *at) {
    struct heap_answer answer = {at != NULL, at != NULL ? at : &nowhere};
    return answer;
}

/* A block of no bytes has an address too. */
static size_t some(size_t bytes) { return bytes != 0 ? bytes : 1; }

struct heap_answer rattle_alloc(size_t bytes, size_t alignment) {
    (void)alignment;
    return answer(malloc(some(bytes)));
}

struct heap_answer rattle_realloc(void *at, size_t kept, size_t bytes, size_t alignment) {
    (void)kept, (void)alignment;
    return answer(realloc(at, some(bytes)));
}

void rattle_dealloc(void *at) { free(at); }
