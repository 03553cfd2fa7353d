/* The program sdm from the calls of sdm_calls.h, over the standard streams: the same words, codes, lines and bytes. An input is
 * read whole, except by `live`. What the program proves of its streams' faults is trusted here. */
#include "sdm_calls.h"

#include <errno.h>
#include <signal.h>
#include <stdbool.h>
#include <stdlib.h>
#include <string.h>
#include <unistd.h>

enum { MOST_INPUT = 16777216, BLOCK = 65536 };

/* The next bytes of standard input, read again where a signal came; 0 at its end, below 0 where it failed. */
static ssize_t next(uint8_t *into, size_t room) {
    ssize_t got;
    do
        got = read(STDIN_FILENO, into, room);
    while (got < 0 && errno == EINTR);
    return got;
}

static bool put(int to, const uint8_t *bytes, size_t count) {
    while (count > 0) {
        ssize_t took = write(to, bytes, count);
        if (took == 0 || (took < 0 && errno != EINTR))
            return false;
        bytes += took > 0 ? took : 0;
        count -= took > 0 ? (size_t)took : 0;
    }
    return true;
}

static int failed(const char *line, int code) {
    (void)put(STDERR_FILENO, (const uint8_t *)line, strlen(line));
    return code;
}

static int no_memory(void) { return failed("sdm: no memory\n", SDM_CODE_MEMORY); }
static int read_fault(void) { return failed("sdm: read fault\n", SDM_CODE_READ_FAULT); }
static int write_fault(void) { return failed("sdm: write fault\n", SDM_CODE_WRITE_FAULT); }

static uint8_t *input;
static size_t input_bytes;

/* Answers words over the input, and writes what is told. */
static int answer(const uint8_t *words, size_t bytes) {
    struct sdm_buffer text = SDM_BUFFER_INIT, line = SDM_BUFFER_INIT;
    uint32_t code = sdm_command_text(words, bytes, input, input_bytes, &text, &line);
    if (!put(STDOUT_FILENO, text.at, text.bytes))
        return write_fault();
    if (code == SDM_CODE_MEMORY && line.bytes == 0)
        return no_memory();
    (void)put(STDERR_FILENO, line.at, line.bytes);
    sdm_buffer_free(&text);
    sdm_buffer_free(&line);
    return (int)code;
}

/* Whether the line that begins at a place is a dividing line; then where the records begin. At the end of the input one
 * that nothing ends is one, too. */
static bool is_division(size_t at, bool is_end, size_t *records) {
    size_t left = input_bytes - at;
    *records = at + 2;
    if (left < 2 || memcmp(input + at, "%%", 2) != 0)
        return false;
    if (left == 2)
        return is_end;
    *records = at + (input[at + 2] == '\r' ? 4 : 3);
    return *records <= input_bytes && input[*records - 1] == '\n';
}

/* Looks for the dividing line from a line's start on, which it moves on to the last line. */
static bool is_divided(size_t *line, bool is_end, size_t *records) {
    while (!is_division(*line, is_end, records)) {
        const uint8_t *end =
            *line < input_bytes ? (const uint8_t *)memchr(input + *line, '\n', input_bytes - *line) : NULL;
        if (end == NULL)
            return false;
        *line = (size_t)(end - input) + 1;
    }
    return true;
}

/* Feeds records and writes the answers. */
static int feed(struct sdm_live *live, const uint8_t *records, size_t count, bool is_end) {
    struct sdm_buffer answers = SDM_BUFFER_INIT;
    uint32_t code = sdm_live_feed(live, records, count, &answers);
    if (code == SDM_CODE_DONE && is_end)
        code = sdm_live_end(live, &answers);
    bool is_written = put(STDOUT_FILENO, answers.at, answers.bytes);
    sdm_buffer_free(&answers);
    if (code != SDM_CODE_DONE)
        return no_memory();
    return is_written ? SDM_CODE_DONE : write_fault();
}

/* `live`: the data part as it comes, then an answer to each record before more is read. */
static int serve(void) {
    struct sdm_live live = SDM_LIVE_INIT;
    struct sdm_ended ended;
    size_t line = 0, records = 0;
    ssize_t got;
    do {
        got = next(input + input_bytes, BLOCK);
        if (got < 0)
            return read_fault();
        if ((size_t)got > MOST_INPUT - input_bytes)
            return failed("sdm: input too long\n", SDM_CODE_TOO_LONG);
        input_bytes += (size_t)got;
        if (is_divided(&line, got == 0, &records))
            break;
    } while (got > 0);
    if (!is_divided(&line, got == 0, &records))
        return failed("sdm: bad data: no %% line\n", SDM_CODE_BAD_DATA);
    uint32_t code = sdm_live_open(&live, input, line, &ended);
    if (code != SDM_CODE_DONE) {
        (void)put(STDERR_FILENO, ended.line, ended.line_bytes);
        return (int)code;
    }
    int told = feed(&live, input + records, input_bytes - records, got == 0);
    while (told == SDM_CODE_DONE && got > 0) {
        got = next(input, BLOCK);
        told = got < 0 ? read_fault() : feed(&live, input, (size_t)got, got == 0);
    }
    sdm_live_close(&live);
    return told;
}

/* The words after the program's name, with a zero byte between two. */
static uint8_t *joined(int count, char **words, size_t *bytes) {
    *bytes = 0;
    for (int i = 1; i < count; i++)
        *bytes += strlen(words[i]) + (i > 1);
    uint8_t *all = (uint8_t *)malloc(*bytes + 1), *end = all;
    for (int i = 1; all != NULL && i < count; i++) {
        if (i > 1)
            *end++ = 0;
        memcpy(end, words[i], strlen(words[i]));
        end += strlen(words[i]);
    }
    return all;
}

/* Whether words are those of a command that reads its input: over none of it they are words of a command. */
static bool reads(const uint8_t *words, size_t bytes, const char *first) {
    struct sdm_ended ended;
    bool is_alone = strcmp(first, "trial") == 0 || strcmp(first, "version") == 0 || strcmp(first, "help") == 0;
    return !is_alone && sdm_command_into(words, bytes, NULL, 0, NULL, 0, &ended) != SDM_CODE_USAGE;
}

/* Reads the input whole, or so much that it is too long; false where it failed. */
static bool is_read(void) {
    ssize_t got = 1;
    while (got > 0 && input_bytes <= MOST_INPUT) {
        got = next(input + input_bytes, MOST_INPUT + 1 - input_bytes);
        input_bytes += got > 0 ? (size_t)got : 0;
    }
    return got >= 0;
}

int main(int count, char **arguments) {
    size_t bytes;
    int code;
    signal(SIGPIPE, SIG_IGN);
    uint8_t *words = joined(count, arguments, &bytes);
    input = (uint8_t *)malloc(MOST_INPUT + BLOCK);
    if (words == NULL || input == NULL)
        code = no_memory();
    else if (count == 2 && strcmp(arguments[1], "live") == 0)
        code = serve();
    else if (count > 1 && reads(words, bytes, arguments[1]) && !is_read())
        code = read_fault();
    else
        code = answer(words, bytes);
    free(words);
    free(input);
    return code;
}
