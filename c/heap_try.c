/* Tries a heap: asks for blocks of many sizes, grows, shrinks and gives them back, in an order that a number makes, and
 * looks whether each keeps what is written to it and lies at a multiple of 16. Link it with the heap; with a small
 * arena many calls find no memory, and must then leave the block as it was.
 *
 *     heap_try    ends with 0 where all is as heap.h says, else tells what isn't and ends with 1 */
#include "heap.h"

#include <stdint.h>
#include <stdio.h>
#include <string.h>

enum { BLOCKS = 200, STEPS = 200000, MOST_BYTES = 2000, ALIGNMENT = 16 };

/* A block that is held, with the byte that it is filled with. */
struct block {
    uint8_t *at;
    size_t bytes;
    uint8_t filling;
};

static struct block blocks[BLOCKS];
static uint64_t state = 1;
static unsigned long given, refused;

/* A number below a bound, of a generator that gives the same ones everywhere. */
static unsigned draw(unsigned bound) {
    state = state * 6364136223846793005u + 1442695040888963407u;
    return (unsigned)(state >> 33) % bound;
}

static bool is_filled(const struct block *block, size_t bytes) {
    for (size_t i = 0; i < bytes; i++)
        if (block->at[i] != block->filling)
            return false;
    return true;
}

/* Fills a block anew. */
static void fill(struct block *block, void *at, size_t bytes) {
    block->at = (uint8_t *)at;
    block->bytes = bytes;
    block->filling = (uint8_t)draw(256);
    memset(at, block->filling, bytes);
}

/* A block is asked for where there is none, else resized or given back. What is wrong then; null for nothing. */
static const char *step(struct block *block) {
    size_t bytes = draw(MOST_BYTES);
    if (block->at != NULL && !is_filled(block, block->bytes))
        return "a block doesn't keep what was written to it";
    if (block->at != NULL && draw(2) == 0) {
        rattle_dealloc(block->at);
        block->at = NULL;
        return NULL;
    }
    size_t kept = block->at == NULL || bytes < block->bytes ? bytes : block->bytes;
    struct heap_answer answer =
        block->at == NULL ? rattle_alloc(bytes, ALIGNMENT) : rattle_realloc(block->at, kept, bytes, ALIGNMENT);
    if (answer.at == NULL)
        return "an address is null";
    if (!answer.is_done) {
        refused++;
        return block->at == NULL || is_filled(block, block->bytes) ? NULL : "a block that couldn't grow has changed";
    }
    given++;
    if ((uintptr_t)answer.at % ALIGNMENT != 0)
        return "a block isn't aligned";
    bool is_grown = block->at != NULL;
    block->at = (uint8_t *)answer.at;
    if (is_grown && !is_filled(block, kept))
        return "a block that was resized doesn't keep its first bytes";
    fill(block, answer.at, bytes);
    return NULL;
}

int main(void) {
    const char *wrong = NULL;
    for (int i = 0; i < STEPS && wrong == NULL; i++)
        wrong = step(&blocks[draw(BLOCKS)]);
    for (int i = 0; i < BLOCKS; i++)
        if (blocks[i].at != NULL)
            rattle_dealloc(blocks[i].at);
    if (wrong != NULL)
        printf("heap_try: %s\n", wrong);
    else
        printf("heap_try: %lu blocks were given, %lu weren't, since memory ran out\n", given, refused);
    return wrong != NULL;
}
