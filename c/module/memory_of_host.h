/* Included before heap_module.c and c/heap_try.c where these are tried on a host: the memory of a module that may grow to a
 * few pages, as an array. */
#ifndef SDM_MEMORY_OF_HOST_H
#define SDM_MEMORY_OF_HOST_H

#include <stdalign.h>
#include <stddef.h>
#include <stdint.h>

enum { HOST_PAGE = 65536, HOST_PAGES = 8 };

static alignas(HOST_PAGE) unsigned char host_memory[HOST_PAGES * HOST_PAGE];
static size_t host_pages = 1;

/* The end of the memory in pages, counted from address 0. */
static inline size_t host_memory_size(void) { return (uintptr_t)host_memory / HOST_PAGE + host_pages; }

/* Adds pages, where there are as many. */
static inline size_t host_memory_grow(size_t pages) {
    size_t before = host_memory_size();
    if (pages > HOST_PAGES - host_pages)
        return (size_t)-1;
    host_pages += pages;
    return before;
}

#define __builtin_wasm_memory_size(memory) host_memory_size()
#define __builtin_wasm_memory_grow(memory, pages) host_memory_grow(pages)

#endif
