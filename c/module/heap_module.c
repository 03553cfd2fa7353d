/* The heap inside the WebAssembly module: it takes the module's memory behind what the module begins with, and asks for
 * more as it is needed, a page of 64 KiB at a time. Where the host has no more, a block is refused.
 *
 * A block belongs to a class of sizes, 1 to 8 units of 16 bytes and then four classes to each doubling. A block that is
 * given back waits in the list of its class. So each call takes a time that doesn't grow with the number of blocks.
 * Blocks aren't joined, and memory isn't given back to the host. */
#include "heap.h"

#include <stdalign.h>
#include <stdint.h>
#include <string.h>

enum { UNIT = 16, SMALL_KINDS = 8, KINDS = 256, PAGE = 65536 };

/* What stands before each block. */
struct head {
    alignas(UNIT) struct head *next; /* while it is free */
    size_t kind;
};

static struct head *lists[KINDS];
static size_t begun; /* where the memory begins that no block had yet; 0 before the first call */
static size_t end;   /* of the memory */

/* The class of so many bytes: the number of units, rounded up to one of eighths of a doubling. */
static size_t kind_of(size_t bytes) {
    size_t units = bytes / UNIT + (bytes % UNIT != 0);
    if (units <= SMALL_KINDS)
        return units == 0 ? 1 : units;
    unsigned digits = 63 - (unsigned)__builtin_clzll(units - 1); /* 2^digits <= units - 1 */
    return 4 * (size_t)digits + ((units - 1) >> (digits - 2)) - 7;
}

/* The bytes of a block of a class. */
static size_t bytes_of(size_t kind) {
    if (kind <= SMALL_KINDS)
        return UNIT * kind;
    size_t at = kind - SMALL_KINDS - 1, digits = 3 + at / 4;
    return UNIT * ((5 + at % 4) << (digits - 2));
}

static size_t memory_end(void) { return __builtin_wasm_memory_size(0) * PAGE; }

/* Takes so many bytes of memory that no block had yet; 0 where there are none. The size tells whether memory has grown:
 * what a refusal answers isn't the same in the two modules. */
static size_t new_memory(size_t bytes) {
    if (begun == 0)
        begun = end = memory_end();
    if (bytes > end - begun) {
        (void)__builtin_wasm_memory_grow(0, (bytes - (end - begun) + PAGE - 1) / PAGE);
        end = memory_end();
    }
    if (bytes > end - begun)
        return 0;
    begun += bytes;
    return begun - bytes;
}

static struct heap_answer refused(void) {
    struct heap_answer answer = {false, lists};
    return answer;
}

struct heap_answer rattle_alloc(size_t bytes, size_t alignment) {
    (void)alignment;
    if (bytes > UINT32_MAX / 2)
        return refused();
    size_t kind = kind_of(bytes);
    struct head *head = lists[kind];
    if (head != NULL) {
        lists[kind] = head->next;
    } else {
        head = (struct head *)new_memory(sizeof(struct head) + bytes_of(kind));
        if (head == NULL)
            return refused();
        head->kind = kind;
    }
    struct heap_answer answer = {true, head + 1};
    return answer;
}

void rattle_dealloc(void *at) {
    struct head *head = (struct head *)at - 1;
    head->next = lists[head->kind];
    lists[head->kind] = head;
}

struct heap_answer rattle_realloc(void *at, size_t kept, size_t bytes, size_t alignment) {
    const struct head *head = (const struct head *)at - 1;
    if (bytes <= bytes_of(head->kind)) {
        struct heap_answer same = {true, at};
        return same;
    }
    struct heap_answer moved = rattle_alloc(bytes, alignment);
    if (moved.is_done) {
        memcpy(moved.at, at, kept < bytes ? kept : bytes);
        rattle_dealloc(at);
    }
    return moved;
}

/* Blocks for the host's own, which the module exports: for the structs and the data that it passes. Null where there is
 * no memory. */
void *block_take(size_t bytes) {
    struct heap_answer answer = rattle_alloc(bytes, UNIT);
    return answer.is_done ? answer.at : NULL;
}

void block_free(void *at) { rattle_dealloc(at); }
