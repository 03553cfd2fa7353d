/* What a test can ask the heap of heap_test.c, and tell it. */
#ifndef SDM_HEAP_TEST_H
#define SDM_HEAP_TEST_H

#include <stddef.h>

#ifdef __cplusplus
extern "C" {
#endif

/* Since the last heap_test_begin: */
struct heap_counts {
    unsigned long asked;      /* calls of rattle_alloc and rattle_realloc */
    unsigned long given_back; /* calls of rattle_dealloc */
    unsigned long held;       /* blocks that are held now, whenever they were asked for */
    size_t bytes;             /* of them */
    size_t most_bytes;        /* the most bytes that were held at a time */
};

/* Counts from 0 on. Of the calls that ask for memory those from the first number to the last find none; with 0 and 0
 * each one finds it. */
void heap_test_begin(unsigned long first_failing, unsigned long last_failing);

struct heap_counts heap_test_counts(void);

#ifdef __cplusplus
}
#endif

#endif
