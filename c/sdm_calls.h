/* sdm_calls: each command of the program sdm as a call. Words and the bytes of an input go in; the text that the command
 * defines for them, the line that the program writes where something is wrong, and a code come out. No call keeps anything
 * for the next, and several threads may call at once.
 *
 * What the commands are, and what their texts mean: docs/FORMATS.md. Duties of the caller, which nothing checks:
 * docs/FROM-C.md. C11 or later, or C++11 or later. */
#ifndef SDM_CALLS_H
#define SDM_CALLS_H

#include <stddef.h>
#include <stdint.h>

#ifdef __cplusplus
extern "C" {
#endif

/* The number of this header's layout: compare it with sdm_calls_layout() before the first other call. It rises as
 * SDM_LAYOUT of sdm.h does. */
#define SDM_CALLS_LAYOUT 1u

/* Makes compilers warn of a call whose code is ignored, where they can. */
#ifndef SDM_MUST_CHECK
#if defined(__cplusplus) && __cplusplus >= 201703L
#define SDM_MUST_CHECK [[nodiscard]]
#elif defined(__STDC_VERSION__) && __STDC_VERSION__ >= 202311L
#define SDM_MUST_CHECK [[nodiscard]]
#elif defined(__GNUC__)
#define SDM_MUST_CHECK __attribute__((warn_unused_result))
#else
#define SDM_MUST_CHECK
#endif
#endif

/* What a call returns: the exit statuses of the program, and one more. */
enum sdm_code {
    SDM_CODE_DONE = 0,        /* the text is whole */
    SDM_CODE_USAGE = 1,       /* the words are those of no command */
    SDM_CODE_READ_FAULT = 2,  /* of the program alone: standard input failed */
    SDM_CODE_WRITE_FAULT = 3, /* memory for more of the text was refused; of the program: standard output failed */
    SDM_CODE_TOO_LONG = 4,    /* the input has more than 16,777,216 bytes */
    SDM_CODE_BAD_DATA = 5,    /* the data part breaks a rule */
    SDM_CODE_REFUSED = 6,     /* the slopes or the first authority are refused */
    SDM_CODE_BAD_EVENT = 7,   /* a record or a line is refused */
    SDM_CODE_MEMORY = 8,      /* memory was refused */
    SDM_CODE_UNDRIVABLE = 9,  /* the data can't be driven */
    SDM_CODE_BAD_CALL = 64    /* a pointer is null, or a length is above PTRDIFF_MAX: nothing was done */
};

/* A buffer that grows, in memory of the heap of heap.h. It begins as SDM_BUFFER_INIT, and ends by sdm_buffer_free. */
struct sdm_buffer {
    uint8_t *at;  /* null while it has no room */
    size_t bytes; /* that count, from the first on */
    size_t room;
};
#define SDM_BUFFER_INIT                                                                                                \
    { NULL, 0, 0 }

/* How a call over lent memory ended. */
struct sdm_ended {
    uint64_t text_bytes; /* that the text has; where they are more than there was room for, it was cut off */
    uint32_t line_bytes; /* of the line that count, from the first on */
    uint8_t line[192];   /* the line that the program writes, with its line feed and no zero at its end */
};

/* A session of `live`, or none. It begins as SDM_LIVE_INIT; after that the calls alone read and write it. It may be moved,
 * never copied, and has one call at a time. */
struct sdm_live {
    void *at;
    uint32_t is_open;
};
#define SDM_LIVE_INIT                                                                                                  \
    { NULL, 0 }

/* Words are bytes: those of the words after the program's name, with a zero byte between two, as "trial", 0, "7", 0, "100",
 * which are 11 bytes. Pointers to bytes may be null where there are none. Each call returns an enum sdm_code. */

/* The number of the layout that the library was built for: SDM_CALLS_LAYOUT, or the two don't belong together. */
uint32_t sdm_calls_layout(void);

/* What a code means: a few English words with a zero at their end. A number that is no code has a text too. */
const char *sdm_code_text(uint32_t code);

/* Answers words over an input: lent memory gets as many bytes of the text as it has room for, and `ended` how many the text
 * has, and the line. `live` is no command here. */
SDM_MUST_CHECK uint32_t sdm_command_into(const uint8_t *words, size_t words_bytes, const uint8_t *input,
                                         size_t input_bytes, uint8_t *room, size_t room_bytes, struct sdm_ended *ended);

/* The same, with the text and the line after what two buffers have. A text for which the room was too small is made
 * again, with as much as it needs. Where memory for a buffer is refused, SDM_CODE_MEMORY, and nothing of the text. */
SDM_MUST_CHECK uint32_t sdm_command_text(const uint8_t *words, size_t words_bytes, const uint8_t *input,
                                         size_t input_bytes, struct sdm_buffer *text, struct sdm_buffer *line);

/* Opens a session over a data part, without the dividing line after it. SDM_CODE_BAD_CALL where it is open already. Where
 * the data are refused, or memory is, `ended` has the program's line. */
SDM_MUST_CHECK uint32_t sdm_live_open(struct sdm_live *live, const uint8_t *data, size_t data_bytes,
                                      struct sdm_ended *ended);

/* Takes the next bytes of the records, however they are cut, and puts the answers to the lines that they end after what
 * the buffer has: those that `live` writes. With SDM_CODE_MEMORY answers are lost: close the session. SDM_CODE_BAD_CALL
 * where it isn't open. */
SDM_MUST_CHECK uint32_t sdm_live_feed(struct sdm_live *live, const uint8_t *records, size_t records_bytes,
                                      struct sdm_buffer *answers);

/* Ends the records: as sdm_live_feed, with the answer to a last line that nothing ends. */
SDM_MUST_CHECK uint32_t sdm_live_end(struct sdm_live *live, struct sdm_buffer *answers);

/* Frees the memory of a session and leaves it as SDM_LIVE_INIT. Does nothing to one that isn't open. */
void sdm_live_close(struct sdm_live *live);

/* Gives the memory of a buffer back and leaves it as SDM_BUFFER_INIT. */
void sdm_buffer_free(struct sdm_buffer *buffer);

/* The layout that the library was built for. Where one of these fails, the target isn't one for which it was built. */
#ifdef __cplusplus
#define SDM_CALLS_IS_TRUE(fact) static_assert(fact, #fact)
#else
#define SDM_CALLS_IS_TRUE(fact) _Static_assert(fact, #fact)
#endif
#define SDM_CALLS_SIZE(type, bytes) SDM_CALLS_IS_TRUE(sizeof(struct type) == (bytes))
#define SDM_CALLS_AT(type, field, bytes) SDM_CALLS_IS_TRUE(offsetof(struct type, field) == (bytes))

SDM_CALLS_IS_TRUE(sizeof(void *) == 8);
SDM_CALLS_IS_TRUE(sizeof(size_t) == 8);

SDM_CALLS_SIZE(sdm_buffer, 24);
SDM_CALLS_AT(sdm_buffer, at, 0);
SDM_CALLS_AT(sdm_buffer, bytes, 8);
SDM_CALLS_AT(sdm_buffer, room, 16);

SDM_CALLS_SIZE(sdm_live, 16);
SDM_CALLS_AT(sdm_live, at, 0);
SDM_CALLS_AT(sdm_live, is_open, 8);

SDM_CALLS_SIZE(sdm_ended, 208);
SDM_CALLS_AT(sdm_ended, text_bytes, 0);
SDM_CALLS_AT(sdm_ended, line_bytes, 8);
SDM_CALLS_AT(sdm_ended, line, 12);

#undef SDM_CALLS_AT
#undef SDM_CALLS_SIZE
#undef SDM_CALLS_IS_TRUE

#ifdef __cplusplus
}
#endif

#endif
