/* What stands between sdm_calls.h and the crate sdm_calls: tests of pointers and lengths, and buffers that grow. Nothing here
 * is kept from one call to the next. */
#include "sdm_calls.h"
#include "heap.h"

#include <string.h>

#ifdef __cplusplus
extern "C" {
#endif

/* The exports of the crate. */
uint32_t sdm_calls_into(const uint8_t *words, size_t words_bytes, const uint8_t *input, size_t input_bytes,
                        uint8_t *room, size_t room_bytes, struct sdm_ended *ended);
uint32_t sdm_calls_live_open(struct sdm_live *live, const uint8_t *data, size_t data_bytes, struct sdm_ended *ended);
uint32_t sdm_calls_live_feed(struct sdm_live *live, const uint8_t *bytes, size_t count, uint8_t *room, size_t room_bytes,
                             struct sdm_ended *ended);
uint32_t sdm_calls_live_end(struct sdm_live *live, uint8_t *room, size_t room_bytes, struct sdm_ended *ended);
void sdm_calls_live_close(struct sdm_live *live);

#ifdef __cplusplus
}
#endif

/* Whether bytes may be read: so many of them can lie in memory, and none of them at null. */
static bool is_readable(const uint8_t *at, size_t bytes) {
    return bytes <= PTRDIFF_MAX && (at != NULL || bytes == 0);
}

/* What is handed over in place of null where there are no bytes. */
static const uint8_t NO_BYTES[1] = {0};

static const uint8_t *some(const uint8_t *at) { return at != NULL ? at : NO_BYTES; }

uint32_t sdm_command_into(const uint8_t *words, size_t words_bytes, const uint8_t *input, size_t input_bytes,
                          uint8_t *room, size_t room_bytes, struct sdm_ended *ended) {
    if (!is_readable(words, words_bytes) || !is_readable(input, input_bytes) || !is_readable(room, room_bytes) ||
        ended == NULL)
        return SDM_CODE_BAD_CALL;
    uint8_t none[1] = {0};
    return sdm_calls_into(some(words), words_bytes, some(input), input_bytes, room != NULL ? room : none, room_bytes,
                          ended);
}

static const size_t LEAST_ROOM = 256;

/* The next greater room of a buffer in which so many bytes more are to fit; 0 where there is none. */
static size_t greater_room(const struct sdm_buffer *buffer, size_t more) {
    if (more > (size_t)PTRDIFF_MAX - buffer->bytes)
        return 0;
    size_t due = buffer->bytes + more;
    size_t twice = buffer->room <= (size_t)PTRDIFF_MAX / 2 ? 2 * buffer->room : (size_t)PTRDIFF_MAX;
    size_t room = twice > due ? twice : due;
    return room > LEAST_ROOM ? room : LEAST_ROOM;
}

/* Makes room for so many bytes more; false where memory is refused, and then the buffer is as it was. */
static bool has_room(struct sdm_buffer *buffer, size_t more) {
    if (more <= buffer->room - buffer->bytes)
        return true;
    size_t room = greater_room(buffer, more);
    if (room == 0)
        return false;
    struct heap_answer answer =
        buffer->at == NULL ? rattle_alloc(room, 1) : rattle_realloc(buffer->at, buffer->bytes, room, 1);
    if (!answer.is_done)
        return false;
    buffer->at = (uint8_t *)answer.at;
    buffer->room = room;
    return true;
}

/* Makes room for so many bytes more and clears it; false where memory is refused. */
static bool has_cleared_room(struct sdm_buffer *buffer, size_t bytes) {
    if (!has_room(buffer, bytes))
        return false;
    memset(buffer->at + buffer->bytes, 0, bytes);
    return true;
}

static bool append(struct sdm_buffer *buffer, const uint8_t *bytes, size_t count) {
    if (!has_room(buffer, count))
        return false;
    if (count > 0)
        memcpy(buffer->at + buffer->bytes, bytes, count);
    buffer->bytes += count;
    return true;
}

static bool is_buffer(const struct sdm_buffer *buffer) {
    return buffer != NULL && buffer->bytes <= buffer->room && (buffer->at != NULL || buffer->room == 0);
}

/* The room with which a text is tried first: most are no longer than this. */
static size_t first_room(size_t input_bytes) {
    return input_bytes < (size_t)PTRDIFF_MAX / 4 ? 2 * input_bytes + 4096 : input_bytes;
}

uint32_t sdm_command_text(const uint8_t *words, size_t words_bytes, const uint8_t *input, size_t input_bytes,
                          struct sdm_buffer *text, struct sdm_buffer *line) {
    if (!is_readable(words, words_bytes) || !is_readable(input, input_bytes) || !is_buffer(text) || !is_buffer(line) ||
        text == line)
        return SDM_CODE_BAD_CALL;
    struct sdm_ended ended = {0, 0, {0}};
    size_t room = first_room(input_bytes);
    uint32_t code;
    for (;;) {
        if (!has_cleared_room(text, room))
            return SDM_CODE_MEMORY;
        code = sdm_calls_into(some(words), words_bytes, some(input), input_bytes, text->at + text->bytes, room, &ended);
        if (ended.text_bytes <= room)
            break;
        room = (size_t)ended.text_bytes;
    }
    if (!append(line, ended.line, ended.line_bytes))
        return SDM_CODE_MEMORY;
    text->bytes += (size_t)ended.text_bytes;
    return code;
}

uint32_t sdm_live_open(struct sdm_live *live, const uint8_t *data, size_t data_bytes, struct sdm_ended *ended) {
    if (live == NULL || !is_readable(data, data_bytes) || ended == NULL)
        return SDM_CODE_BAD_CALL;
    return sdm_calls_live_open(live, some(data), data_bytes, ended);
}

/* No answer has more bytes. */
static const size_t LONGEST_ANSWER = 192;
/* So many bytes are taken at a time, so that the answers to them have room. */
static const size_t MOST_TAKEN = 512;

/* Counts what a call put into room after what the buffer had; a text that had too little is one that is lost. */
static uint32_t counted(uint32_t code, struct sdm_buffer *answers, size_t room, const struct sdm_ended *ended) {
    if (code != SDM_CODE_DONE)
        return code;
    if (ended->text_bytes > room)
        return SDM_CODE_MEMORY;
    answers->bytes += (size_t)ended->text_bytes;
    return SDM_CODE_DONE;
}

uint32_t sdm_live_feed(struct sdm_live *live, const uint8_t *records, size_t records_bytes, struct sdm_buffer *answers) {
    if (live == NULL || live->is_open != 1 || !is_readable(records, records_bytes) || !is_buffer(answers))
        return SDM_CODE_BAD_CALL;
    struct sdm_ended ended = {0, 0, {0}};
    for (size_t taken = 0, count; taken < records_bytes; taken += count) {
        count = records_bytes - taken < MOST_TAKEN ? records_bytes - taken : MOST_TAKEN;
        /* A line has a byte and an end, except one that began before. */
        size_t room = (count / 2 + 2) * LONGEST_ANSWER;
        if (!has_cleared_room(answers, room))
            return SDM_CODE_MEMORY;
        uint32_t code =
            sdm_calls_live_feed(live, records + taken, count, answers->at + answers->bytes, room, &ended);
        code = counted(code, answers, room, &ended);
        if (code != SDM_CODE_DONE)
            return code;
    }
    return SDM_CODE_DONE;
}

uint32_t sdm_live_end(struct sdm_live *live, struct sdm_buffer *answers) {
    if (live == NULL || live->is_open != 1 || !is_buffer(answers))
        return SDM_CODE_BAD_CALL;
    struct sdm_ended ended = {0, 0, {0}};
    if (!has_cleared_room(answers, LONGEST_ANSWER))
        return SDM_CODE_MEMORY;
    uint32_t code = sdm_calls_live_end(live, answers->at + answers->bytes, LONGEST_ANSWER, &ended);
    return counted(code, answers, LONGEST_ANSWER, &ended);
}

void sdm_live_close(struct sdm_live *live) {
    if (live != NULL)
        sdm_calls_live_close(live);
}

void sdm_buffer_free(struct sdm_buffer *buffer) {
    if (buffer == NULL)
        return;
    if (buffer->at != NULL)
        rattle_dealloc(buffer->at);
    struct sdm_buffer none = SDM_BUFFER_INIT;
    *buffer = none;
}

const char *sdm_code_text(uint32_t code) {
    switch ((enum sdm_code)code) {
    case SDM_CODE_DONE:
        return "done";
    case SDM_CODE_USAGE:
        return "the words are those of no command";
    case SDM_CODE_READ_FAULT:
        return "standard input failed";
    case SDM_CODE_WRITE_FAULT:
        return "memory for more of the text was refused, or standard output failed";
    case SDM_CODE_TOO_LONG:
        return "the input is too long";
    case SDM_CODE_BAD_DATA:
        return "the data part breaks a rule";
    case SDM_CODE_REFUSED:
        return "the slopes or the first authority are refused";
    case SDM_CODE_BAD_EVENT:
        return "a record or a line is refused";
    case SDM_CODE_MEMORY:
        return "memory was refused";
    case SDM_CODE_UNDRIVABLE:
        return "the data can't be driven";
    case SDM_CODE_BAD_CALL:
        return "a pointer is null or a length is too great";
    }
    return "no code";
}
