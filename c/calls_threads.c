/* Calls of sdm_calls.h in several threads at once, over an input of `run` from standard input: each thread gets what a call
 * alone gets. */
#include "sdm_calls.h"

#include <pthread.h>
#include <stdbool.h>
#include <stdio.h>
#include <string.h>

enum { MOST_INPUT = 1 << 20, THREADS = 4, TIMES = 50, COMMANDS = 4 };

static const char *const WORDS[COMMANDS] = {"run", "display", "why", "upgrade"};

static uint8_t input[MOST_INPUT];
static size_t input_bytes;

/* What a command tells. */
struct answer {
    uint32_t code;
    struct sdm_buffer text, line;
};

static struct answer due[COMMANDS];

static struct answer answer_of(const char *word) {
    struct answer answer = {0, SDM_BUFFER_INIT, SDM_BUFFER_INIT};
    answer.code = sdm_command_text((const uint8_t *)word, strlen(word), input, input_bytes, &answer.text, &answer.line);
    return answer;
}

static void let_go(struct answer *answer) {
    sdm_buffer_free(&answer->text);
    sdm_buffer_free(&answer->line);
}

static bool are_same(const struct sdm_buffer *a, const struct sdm_buffer *b) {
    return a->bytes == b->bytes && (a->bytes == 0 || memcmp(a->at, b->at, a->bytes) == 0);
}

/* Each thread begins with another command, so that at each time several are at work. */
static void *call(void *number) {
    size_t first = *(const size_t *)number, differ = 0;
    for (size_t i = 0; i < TIMES; i++) {
        size_t which = (first + i) % COMMANDS;
        struct answer answer = answer_of(WORDS[which]);
        differ += answer.code != due[which].code || !are_same(&answer.text, &due[which].text) ||
                  !are_same(&answer.line, &due[which].line);
        let_go(&answer);
    }
    *(size_t *)number = differ;
    return NULL;
}

int main(void) {
    pthread_t threads[THREADS];
    size_t numbers[THREADS], differ = 0;
    input_bytes = fread(input, 1, sizeof input, stdin);
    for (size_t i = 0; i < COMMANDS; i++)
        due[i] = answer_of(WORDS[i]);
    for (size_t i = 0; i < THREADS; i++) {
        numbers[i] = i;
        if (pthread_create(&threads[i], NULL, call, &numbers[i]) != 0)
            return 2;
    }
    for (size_t i = 0; i < THREADS; i++) {
        pthread_join(threads[i], NULL);
        differ += numbers[i];
    }
    for (size_t i = 0; i < COMMANDS; i++)
        let_go(&due[i]);
    printf("%d calls in %d threads, %zu differ\n", THREADS * TIMES, THREADS, differ);
    return differ != 0;
}
