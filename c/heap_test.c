/* A heap for tests: over malloc, it counts its calls, fails those that it is told to fail, and ends the program
 * where what is given back was never asked for. */
#include "heap_test.h"
#include "heap.h"

#include <stdalign.h>
#include <stdint.h>
#include <stdio.h>
#include <stdlib.h>

/* What stands before each block. */
struct head {
    alignas(16) size_t bytes;
    size_t mark; /* MARK while the block is held */
};

static const size_t MARK = 0x5d3b10c5;

static struct heap_counts counts;
static unsigned long first, last;
static char nowhere;

static void fail(const char *why) {
    fprintf(stderr, "heap_test: %s\n", why);
    abort();
}

static struct head *head_of(void *at) {
    struct head *head = (struct head *)at - 1;
    if (head->mark != MARK)
        fail("a block that isn't held is handed in");
    return head;
}

/* Counts a call that asks for memory, with what the library promises of it; whether it shall find none. */
static bool is_failing(size_t bytes, size_t alignment) {
    if (alignment == 0 || 16 % alignment != 0)
        fail("an alignment doesn't divide 16");
    if (bytes > SIZE_MAX / 2)
        fail("a block is too large");
    counts.asked++;
    return first <= counts.asked && counts.asked <= last;
}

static struct heap_answer none(void) {
    struct heap_answer answer = {false, &nowhere};
    return answer;
}

static struct heap_answer held(struct head *head, size_t bytes) {
    head->bytes = bytes;
    head->mark = MARK;
    counts.held++;
    counts.bytes += bytes;
    counts.most_bytes = counts.bytes > counts.most_bytes ? counts.bytes : counts.most_bytes;
    struct heap_answer answer = {true, head + 1};
    return answer;
}

static void let_go(struct head *head) {
    counts.held--;
    counts.bytes -= head->bytes;
    head->mark = 0;
}

struct heap_answer rattle_alloc(size_t bytes, size_t alignment) {
    if (is_failing(bytes, alignment))
        return none();
    struct head *head = (struct head *)malloc(sizeof(struct head) + bytes);
    if (head == NULL)
        fail("malloc has no memory");
    return held(head, bytes);
}

struct heap_answer rattle_realloc(void *at, size_t kept, size_t bytes, size_t alignment) {
    struct head *head = head_of(at);
    if (kept > head->bytes)
        fail("more bytes are to be kept than the block has");
    if (is_failing(bytes, alignment))
        return none();
    let_go(head);
    head = (struct head *)realloc(head, sizeof(struct head) + bytes);
    if (head == NULL)
        fail("realloc has no memory");
    return held(head, bytes);
}

void rattle_dealloc(void *at) {
    struct head *head = head_of(at);
    let_go(head);
    counts.given_back++;
    free(head);
}

void heap_test_begin(unsigned long first_failing, unsigned long last_failing) {
    first = first_failing;
    last = last_failing;
    counts.asked = 0;
    counts.given_back = 0;
    counts.most_bytes = counts.bytes;
}

struct heap_counts heap_test_counts(void) {
    return counts;
}
