/* An input of the program's `run` (docs/FORMATS.md): a data part, the line %%, and records, which must be plain here.
 * Plain records have no quote, no carriage return, no blank line and no byte order mark, so that they are lines and
 * their fields what stands between commas. */
#ifndef SDM_JOURNEY_H
#define SDM_JOURNEY_H

#include "sdm.h"

#include <stdbool.h>
#include <stdio.h>

#ifdef __cplusplus
extern "C" {
#endif

/* An input in memory: the data part and the records are parts of its bytes. */
struct journey {
    uint8_t *bytes; /* owned: journey_free */
    const uint8_t *data;
    size_t data_bytes;
    const uint8_t *records;
    const uint8_t *end; /* of the records */
};

/* How reading an input ends. */
enum journey_end {
    JOURNEY_READ,
    JOURNEY_READ_FAULT,
    JOURNEY_NO_MEMORY,
    JOURNEY_TOO_LONG, /* more than 16,777,216 bytes */
    JOURNEY_NO_DIVIDING_LINE,
    JOURNEY_NOT_PLAIN
};

/* Reads an input to its end. The journey is set with JOURNEY_READ alone. */
enum journey_end journey_read(FILE *from, struct journey *journey);

void journey_free(struct journey *journey);

enum event_kind { EVENT_READ, EVENT_END, EVENT_END_CALCULATED, EVENT_LIMIT, EVENT_RESTRICT, EVENT_REVOKE };

/* What a record writes: its numbers in the order of its columns, each within the range of docs/FORMATS.md. */
struct event {
    enum event_kind kind;
    int64_t numbers[7];
};

/* What is wrong with the form of a record. */
enum form_fault { FORM_DONE, FORM_UNKNOWN_KIND, FORM_FIELD_COUNT, FORM_NOT_A_NUMBER, FORM_OUT_OF_RANGE };

/* Reads the record that begins at *at, before the end, and moves *at behind it. Of a column that is refused its number
 * is told, the kind being column 1. The event is set with FORM_DONE alone. */
enum form_fault event_read(const uint8_t **at, const uint8_t *end, struct event *event, unsigned *column);

/* The reading of an event that is one. */
struct sdm_reading event_reading(const struct event *event);

/* Hands an event to the supervisor and answers what it answers. The row is that of a reading. */
SDM_MUST_CHECK uint32_t event_take(struct sdm *h, const struct event *event, struct sdm_row *row);

/* Whether two rows say the same. */
bool row_is_same(const struct sdm_row *one, const struct sdm_row *other);

#ifdef __cplusplus
}
#endif

#endif
