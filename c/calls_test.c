/* Tries the calls of sdm_calls.h over an input of `run` from standard input: misuse gives a code and changes nothing; each form
 * of the call gives the same text, line and code; with each allocation refused in turn there is a code, a beginning of the
 * text, and nothing held. It prints how much it tried, and ends with 1 at the first fault. */
#include "heap_test.h"
#include "sdm_calls.h"

#include <stdbool.h>
#include <stdio.h>
#include <stdlib.h>
#include <string.h>

enum { MOST_INPUT = 1 << 20 };

static uint8_t input[MOST_INPUT];
static size_t input_bytes;
static unsigned long tried;

static void must(bool holds, const char *what) {
    tried++;
    if (!holds) {
        fprintf(stderr, "calls_test: %s\n", what);
        exit(1);
    }
}

/* Words as bytes. */
struct words {
    const uint8_t *at;
    size_t bytes;
};

static const char *const COMMANDS[] = {"run", "display", "why", "upgrade", "check", "version", "help"};

static struct words words_of(const char *text, size_t bytes) {
    struct words words = {(const uint8_t *)text, bytes};
    return words;
}

static struct words word(const char *name) { return words_of(name, strlen(name)); }

/* What a call told, in its own memory. */
struct answer {
    uint32_t code;
    struct sdm_buffer text, line;
};

static struct answer answer_of(struct words words) {
    struct answer answer = {0, SDM_BUFFER_INIT, SDM_BUFFER_INIT};
    answer.code = sdm_command_text(words.at, words.bytes, input, input_bytes, &answer.text, &answer.line);
    return answer;
}

static void let_go(struct answer *answer) {
    sdm_buffer_free(&answer->text);
    sdm_buffer_free(&answer->line);
}

static bool same(const uint8_t *at, size_t bytes, const struct sdm_buffer *buffer) {
    return bytes == buffer->bytes && (bytes == 0 || memcmp(at, buffer->at, bytes) == 0);
}

static bool begins(const struct sdm_buffer *part, const struct sdm_buffer *whole) {
    return part->bytes <= whole->bytes && (part->bytes == 0 || memcmp(part->at, whole->at, part->bytes) == 0);
}

/* A call over lent memory says what the buffers have, whatever room there is, and writes no byte past it. */
static void try_forms(struct words words) {
    static uint8_t room[4 * MOST_INPUT];
    struct answer due = answer_of(words);
    struct sdm_ended ended;
    memset(room, 0xa5, sizeof room);
    uint32_t code = sdm_command_into(words.at, words.bytes, input, input_bytes, room, sizeof room, &ended);
    must(code == due.code, "into: another code");
    must(same(room, ended.text_bytes, &due.text), "into: another text");
    must(same(ended.line, ended.line_bytes, &due.line), "into: another line");
    must(room[ended.text_bytes] == 0xa5, "into: a byte after the text is changed");
    size_t half = due.text.bytes / 2;
    memset(room, 0xa5, sizeof room);
    code = sdm_command_into(words.at, words.bytes, input, input_bytes, room, half, &ended);
    must(code == due.code, "into half the room: another code");
    must(ended.text_bytes == due.text.bytes, "into half the room: another count");
    must(half == 0 || memcmp(room, due.text.at, half) == 0, "into half the room: another text");
    must(room[half] == 0xa5, "into half the room: a byte after it is changed");
    let_go(&due);
}

/* What buffers have stays, and what comes is put after it. */
static void try_buffers(struct words run) {
    struct answer due = answer_of(run), twice = answer_of(run);
    uint32_t code = sdm_command_text(run.at, run.bytes, input, input_bytes, &twice.text, &twice.line);
    must(code == due.code, "a second time: another code");
    must(twice.text.bytes == 2 * due.text.bytes && twice.line.bytes == 2 * due.line.bytes, "a second time: other counts");
    must(begins(&due.text, &twice.text) && begins(&due.line, &twice.line), "a second time: the first is changed");
    must(due.text.bytes == 0 || memcmp(twice.text.at + due.text.bytes, due.text.at, due.text.bytes) == 0,
         "a second time: another text");
    let_go(&due);
    let_go(&twice);
}

/* Null pointers, lengths that no memory has, and words of no shape. */
static void try_misuse(struct words run) {
    struct sdm_buffer text = SDM_BUFFER_INIT, line = SDM_BUFFER_INIT, broken = {NULL, 1, 0}, lost = {NULL, 0, 9};
    struct sdm_ended ended;
    const size_t wrong = (size_t)PTRDIFF_MAX + 1;
    const uint32_t bad = SDM_CODE_BAD_CALL;
    heap_test_begin(0, 0);
    must(sdm_command_text(NULL, 3, input, input_bytes, &text, &line) == bad, "words at null");
    must(sdm_command_text(run.at, wrong, input, input_bytes, &text, &line) == bad, "words too long");
    must(sdm_command_text(run.at, run.bytes, NULL, 1, &text, &line) == bad, "an input at null");
    must(sdm_command_text(run.at, run.bytes, input, wrong, &text, &line) == bad, "an input too long");
    must(sdm_command_text(run.at, run.bytes, input, input_bytes, NULL, &line) == bad, "no buffer of the text");
    must(sdm_command_text(run.at, run.bytes, input, input_bytes, &text, NULL) == bad, "no buffer of the line");
    must(sdm_command_text(run.at, run.bytes, input, input_bytes, &text, &text) == bad, "one buffer for both");
    must(sdm_command_text(run.at, run.bytes, input, input_bytes, &broken, &line) == bad, "a buffer without its room");
    must(sdm_command_text(run.at, run.bytes, input, input_bytes, &lost, &line) == bad, "a buffer without its memory");
    must(sdm_command_into(run.at, run.bytes, input, input_bytes, NULL, 1, &ended) == bad, "room at null");
    must(sdm_command_into(run.at, run.bytes, input, input_bytes, input, wrong, &ended) == bad, "too much room");
    must(sdm_command_into(run.at, run.bytes, input, input_bytes, NULL, 0, NULL) == bad, "no place for the end");
    must(heap_test_counts().asked == 0, "a bad call asks for memory");
    must(text.bytes == 0 && line.bytes == 0, "a bad call writes");
    must(sdm_command_into(run.at, run.bytes, NULL, 0, NULL, 0, &ended) == SDM_CODE_BAD_DATA, "no input at all");

    static const char OTHERS[][24] = {"", "runs", "Run", "run ", "run\0more", "\0run", "flat\0" "4\0" "100", "flat\0" "100",
                                      "certify", "certify\0" "0", "trial\0" "1", "r\xc3\xa4n", "r\xffn", "live\0more", "live"};
    static const size_t BYTES[] = {0, 4, 3, 4, 8, 4, 10, 8, 7, 9, 7, 4, 3, 9, 4};
    for (size_t i = 0; i < sizeof BYTES / sizeof *BYTES; i++) {
        struct answer answer = answer_of(words_of(OTHERS[i], BYTES[i]));
        must(answer.code == SDM_CODE_USAGE && answer.text.bytes == 0, "words of no shape are answered");
        must(same((const uint8_t *)"sdm: bad words\n", 15, &answer.line), "another line for words of no shape");
        let_go(&answer);
    }
    sdm_buffer_free(NULL);
    must(strcmp(sdm_code_text(10), "no code") == 0 && strcmp(sdm_code_text(0), "done") == 0, "another text of a code");
}

/* Each allocation in turn, and all from it on, find no memory. */
static void try_refused_memory(struct words words) {
    struct answer due = answer_of(words);
    heap_test_begin(0, 0);
    struct answer counted = answer_of(words);
    unsigned long asked = heap_test_counts().asked;
    let_go(&counted);
    for (unsigned long nth = 1; nth <= asked; nth++) {
        for (int is_alone = 0; is_alone < 2; is_alone++) {
            unsigned long before = heap_test_counts().held;
            heap_test_begin(nth, is_alone ? nth : asked + 1);
            struct answer answer = answer_of(words);
            heap_test_begin(0, 0);
            bool is_short = answer.code == SDM_CODE_MEMORY || answer.code == SDM_CODE_WRITE_FAULT;
            must(is_short || answer.code == due.code, "refused memory: another code");
            must(begins(&answer.text, &due.text), "refused memory: no beginning of the text");
            must(is_short || same(answer.text.at, answer.text.bytes, &due.text), "refused memory: a part is called whole");
            let_go(&answer);
            must(heap_test_counts().held == before, "refused memory: a block is lost");
        }
    }
    let_go(&due);
}

/* Where the data part of the input ends, and where its records begin, after the first line of two per cent signs; the input's end
 * where it has none. */
static size_t data_end(size_t *records) {
    for (size_t at = 0; at + 3 <= input_bytes; at++) {
        if ((at == 0 || input[at - 1] == '\n') && memcmp(input + at, "%%\n", 3) == 0) {
            *records = at + 3;
            return at;
        }
    }
    *records = input_bytes;
    return input_bytes;
}

/* Plays the records over a session, so many bytes at a time; the code of the first call that isn't done. */
static uint32_t play(struct sdm_live *live, size_t piece, struct sdm_buffer *answers, struct sdm_ended *ended) {
    size_t records, end = data_end(&records);
    uint32_t code = sdm_live_open(live, input, end, ended);
    for (size_t at = records, count; code == SDM_CODE_DONE && at < input_bytes; at += count) {
        count = input_bytes - at < piece ? input_bytes - at : piece;
        code = sdm_live_feed(live, input + at, count, answers);
    }
    return code == SDM_CODE_DONE ? sdm_live_end(live, answers) : code;
}

/* The rows among answers, which are neither `taken` nor a refusal. */
static struct sdm_buffer rows_in(const struct sdm_buffer *answers) {
    static uint8_t kept[4 * MOST_INPUT];
    struct sdm_buffer rows = {kept, 0, sizeof kept};
    for (size_t at = 0, count; at < answers->bytes; at += count) {
        const uint8_t *end = (const uint8_t *)memchr(answers->at + at, '\n', answers->bytes - at);
        must(end != NULL, "live: no whole line");
        count = (size_t)(end - (answers->at + at)) + 1;
        if (answers->at[at] == 't' || answers->at[at] == 'r')
            continue;
        memcpy(kept + rows.bytes, answers->at + at, count);
        rows.bytes += count;
    }
    return rows;
}

/* Misuse of a session gives a code. */
static void try_live_misuse(void) {
    struct sdm_live live = SDM_LIVE_INIT;
    struct sdm_ended ended;
    struct sdm_buffer answers = SDM_BUFFER_INIT;
    size_t records, end = data_end(&records);
    must(sdm_live_feed(&live, input, 1, &answers) == SDM_CODE_BAD_CALL, "live: fed before it is open");
    must(sdm_live_end(&live, &answers) == SDM_CODE_BAD_CALL, "live: ended before it is open");
    must(sdm_live_open(NULL, input, 1, &ended) == SDM_CODE_BAD_CALL, "live: no session");
    must(sdm_live_open(&live, NULL, 1, &ended) == SDM_CODE_BAD_CALL, "live: data at null");
    must(sdm_live_open(&live, input, 1, NULL) == SDM_CODE_BAD_CALL, "live: no place for the line");
    sdm_live_close(NULL);
    sdm_live_close(&live);
    if (sdm_live_open(&live, input, end, &ended) == SDM_CODE_DONE) {
        must(sdm_live_open(&live, input, end, &ended) == SDM_CODE_BAD_CALL, "live: opened twice");
        must(sdm_live_feed(&live, NULL, 1, &answers) == SDM_CODE_BAD_CALL, "live: records at null");
        must(sdm_live_feed(&live, input, 1, NULL) == SDM_CODE_BAD_CALL, "live: no buffer");
        must(answers.bytes == 0, "live: a bad call answers");
    }
    sdm_live_close(&live);
    must(!live.is_open && live.at == NULL, "live: open after it is closed");
}

/* Data that `run` refuses are refused with its code and line; else the rows in the answers begin those of `run` or are they, and
 * the answers are the same in whatever pieces the records come. With each allocation refused in turn nothing is held. */
static void try_live(void) {
    static const size_t PIECES[] = {1, 7, 100, 4096};
    struct answer run = answer_of(word("run"));
    struct sdm_live live = SDM_LIVE_INIT;
    struct sdm_ended ended;
    struct sdm_buffer whole = SDM_BUFFER_INIT, answers = SDM_BUFFER_INIT;
    uint32_t code = play(&live, MOST_INPUT, &whole, &ended);
    if (code != SDM_CODE_DONE) {
        must(code == run.code && same(ended.line, ended.line_bytes, &run.line), "live: data refused otherwise");
        must(!live.is_open, "live: open where it is refused");
        let_go(&run);
        return;
    }
    sdm_live_close(&live);
    struct sdm_buffer rows = rows_in(&whole);
    must(begins(&run.text, &rows), "live: other rows than those of run");
    must(run.code != SDM_CODE_DONE || rows.bytes == run.text.bytes, "live: more rows than those of run");
    unsigned long before = heap_test_counts().held;
    for (size_t i = 0; i < sizeof PIECES / sizeof *PIECES; i++) {
        must(play(&live, PIECES[i], &answers, &ended) == SDM_CODE_DONE, "live: another code in pieces");
        must(same(answers.at, answers.bytes, &whole), "live: other answers in pieces");
        sdm_live_close(&live);
        sdm_buffer_free(&answers);
    }
    heap_test_begin(0, 0);
    must(play(&live, 1, &answers, &ended) == SDM_CODE_DONE, "live: another code again");
    unsigned long asked = heap_test_counts().asked;
    sdm_live_close(&live);
    sdm_buffer_free(&answers);
    for (unsigned long nth = 1; nth <= asked; nth += nth < 300 ? 1 : 37) {
        heap_test_begin(nth, nth);
        code = play(&live, 1, &answers, &ended);
        heap_test_begin(0, 0);
        must(code == SDM_CODE_MEMORY || code == SDM_CODE_DONE, "live: another code without memory");
        must(code == SDM_CODE_MEMORY || same(answers.at, answers.bytes, &whole), "live: answers lost");
        sdm_live_close(&live);
        sdm_buffer_free(&answers);
        must(heap_test_counts().held == before, "live: a block is lost");
    }
    sdm_buffer_free(&whole);
    let_go(&run);
}

int main(void) {
    must(sdm_calls_layout() == SDM_CALLS_LAYOUT, "another layout");
    input_bytes = fread(input, 1, sizeof input, stdin);
    unsigned long held = heap_test_counts().held;
    for (size_t i = 0; i < sizeof COMMANDS / sizeof *COMMANDS; i++) {
        try_forms(word(COMMANDS[i]));
        try_refused_memory(word(COMMANDS[i]));
    }
    try_forms(words_of("certify\0" "3", 9));
    try_forms(words_of("trial\0" "7\0" "100", 11));
    try_refused_memory(words_of("certify\0" "3", 9));
    try_misuse(word("run"));
    try_buffers(word("run"));
    try_live_misuse();
    try_live();
    must(heap_test_counts().held == held, "a block is held at the end");
    printf("%lu facts hold\n", tried);
    return 0;
}
