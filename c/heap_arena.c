/* A heap in an array of fixed size, for targets without one. It takes no memory but that array, calls nothing of the
 * system, and serves one thread at a time: who opens supervisors in several threads guards these calls, or opens them
 * one after the other.
 *
 * The arena is a row of blocks without gaps. Each begins with a head that has its size, and a new block is the first
 * free one that is large enough. Free neighbours are joined when they are looked at. So a block is found in a time
 * that grows with the number of blocks: it is for sdm_open, which isn't called in a cycle. */
#include "heap_arena.h"
#include "heap.h"

#include <stdalign.h>
#include <stdint.h>
#include <string.h>

/* The size of the arena. What sdm_open takes of it: docs/FROM-C.md. */
#ifndef SDM_ARENA_BYTES
#define SDM_ARENA_BYTES (4u << 20)
#endif

/* A head, or 16 bytes of a block behind it. */
struct unit {
    alignas(16) size_t count; /* of the units of the block, without its head */
    bool is_used;
};

#define UNITS (SDM_ARENA_BYTES / sizeof(struct unit))

static struct unit arena[UNITS];
static bool is_begun;
static size_t most;

/* The head behind a block; that of the last one is the arena's end. */
static struct unit *next(struct unit *head) { return head + 1 + head->count; }

static bool is_last(struct unit *head) { return next(head) == arena + UNITS; }

static struct unit *first(void) {
    if (!is_begun) {
        arena[0].count = UNITS - 1;
        is_begun = true;
    }
    return arena;
}

/* How many units so many bytes need; more than there are where they are too many. */
static size_t units_of(size_t bytes) { return bytes / sizeof(struct unit) + (bytes % sizeof(struct unit) != 0); }

/* Takes the free blocks behind a block into it. */
static void join(struct unit *head) {
    while (!is_last(head) && !next(head)->is_used)
        head->count += 1 + next(head)->count;
}

/* Uses the first units of a block that has at least as many; what is left becomes a free block. */
static void use(struct unit *head, size_t count) {
    if (head->count > count) {
        struct unit *rest = head + 1 + count;
        rest->count = head->count - count - 1;
        rest->is_used = false;
    }
    head->count = count;
    head->is_used = true;
    size_t end = (size_t)(next(head) - arena) * sizeof(struct unit);
    most = end > most ? end : most;
}

static struct heap_answer answer(struct unit *head) {
    struct heap_answer answer = {head != NULL, head != NULL ? (void *)(head + 1) : (void *)arena};
    return answer;
}

struct heap_answer rattle_alloc(size_t bytes, size_t alignment) {
    (void)alignment;
    size_t count = units_of(bytes);
    struct unit *head = first();
    for (;;) {
        if (!head->is_used) {
            join(head);
            if (head->count >= count) {
                use(head, count);
                return answer(head);
            }
        }
        if (is_last(head))
            return answer(NULL);
        head = next(head);
    }
}

struct heap_answer rattle_realloc(void *at, size_t kept, size_t bytes, size_t alignment) {
    struct unit *head = (struct unit *)at - 1;
    size_t count = units_of(bytes), before = head->count;
    if (count > before)
        join(head);
    if (head->count >= count) {
        use(head, count);
        return answer(head);
    }
    use(head, before);
    struct heap_answer moved = rattle_alloc(bytes, alignment);
    if (moved.is_done) {
        memcpy(moved.at, at, kept < bytes ? kept : bytes);
        rattle_dealloc(at);
    }
    return moved;
}

void rattle_dealloc(void *at) { ((struct unit *)at - 1)->is_used = false; }

size_t heap_arena_most(void) { return most; }
