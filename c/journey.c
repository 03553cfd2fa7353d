/* Reads an input of the program's `run`: its parts, and what its records write. */
#include "journey.h"

#include <stdlib.h>
#include <string.h>

enum { MOST_BYTES = 16777216, MOST_DIGITS = 18, MOST_COLUMNS = 7 };

/* The first line that is %% alone, ended by LF, CRLF or the end of the input: where it begins, and what comes behind
 * it. */
static bool find_dividing_line(const uint8_t *at, const uint8_t *end, struct journey *journey) {
    while (at < end) {
        const uint8_t *feed = (const uint8_t *)memchr(at, '\n', (size_t)(end - at));
        const uint8_t *line_end = feed != NULL ? feed : end;
        size_t count = (size_t)(line_end - at);
        bool is_dividing = count == 2 || (count == 3 && feed != NULL && at[2] == '\r');
        if (is_dividing && at[0] == '%' && at[1] == '%') {
            journey->data_bytes = (size_t)(at - journey->data);
            journey->records = feed != NULL ? feed + 1 : end;
            return true;
        }
        at = feed != NULL ? feed + 1 : end;
    }
    return false;
}

static bool are_plain(const uint8_t *records, const uint8_t *end) {
    bool is_line_begun = false;
    if (end - records >= 3 && memcmp(records, "\xef\xbb\xbf", 3) == 0)
        return false;
    for (const uint8_t *at = records; at < end; at++) {
        if (*at == '"' || *at == '\r' || (*at == '\n' && !is_line_begun))
            return false;
        is_line_begun = *at != '\n';
    }
    return true;
}

enum journey_end journey_read(FILE *from, struct journey *journey) {
    uint8_t *bytes = (uint8_t *)malloc(MOST_BYTES + 1);
    if (bytes == NULL)
        return JOURNEY_NO_MEMORY;
    size_t count = fread(bytes, 1, MOST_BYTES + 1, from);
    struct journey found = {bytes, bytes, 0, bytes, bytes + count};
    enum journey_end fault = JOURNEY_READ;
    if (ferror(from))
        fault = JOURNEY_READ_FAULT;
    else if (count > MOST_BYTES)
        fault = JOURNEY_TOO_LONG;
    else if (!find_dividing_line(bytes, found.end, &found))
        fault = JOURNEY_NO_DIVIDING_LINE;
    else if (!are_plain(found.records, found.end))
        fault = JOURNEY_NOT_PLAIN;
    if (fault != JOURNEY_READ) {
        free(bytes);
        return fault;
    }
    *journey = found;
    return JOURNEY_READ;
}

void journey_free(struct journey *journey) {
    free(journey->bytes);
    journey->bytes = NULL;
}

struct range {
    int64_t least, most;
};

/* The columns of a kind of record, from the second on. */
struct form {
    const char *word;
    unsigned columns;
    struct range ranges[MOST_COLUMNS];
};

/* In the order of enum event_kind. The second and third places of a reading lie on either side of its first:
 * read_columns. */
static const struct form forms[] = {
    {"read",
     7,
     {{0, 100000000},
      {-10000000, 110000000},
      {-10000000, 110000000},
      {-10000000, 110000000},
      {0, 138888},
      {-300, 300},
      {0, 10000}}},
    {"end", 3, {{0, 10000000}, {0, 10000000}, {0, 500}}},
    {"endcalc", 3, {{0, 10000000}, {0, 10000000}, {0, 10000000}}},
    {"limit", 2, {{0, 10000000}, {1, 500}}},
    {"restrict", 5, {{0, 65535}, {0, 10000000}, {0, 10000000}, {1, 500}, {0, 1}}},
    {"revoke", 1, {{0, 65535}}},
};

/* A field of a record: its bytes, with no zero at their end. */
struct field {
    const uint8_t *at;
    size_t count;
};

/* The next field of a record that ends at an end; *at moves behind its comma, or past the end where it is the last. */
static struct field next_field(const uint8_t **at, const uint8_t *end) {
    const uint8_t *comma = (const uint8_t *)memchr(*at, ',', (size_t)(end - *at));
    struct field field = {*at, (size_t)((comma != NULL ? comma : end) - *at)};
    *at = comma != NULL ? comma + 1 : NULL;
    return field;
}

static bool is_word(struct field field, const char *word) {
    return field.count == strlen(word) && memcmp(field.at, word, field.count) == 0;
}

static bool read_number(struct field field, int64_t *number) {
    bool is_negative = field.count > 0 && field.at[0] == '-';
    size_t from = is_negative ? 1 : 0;
    int64_t value = 0;
    if (field.count == from || field.count - from > MOST_DIGITS)
        return false;
    for (size_t i = from; i < field.count; i++) {
        if (field.at[i] < '0' || field.at[i] > '9')
            return false;
        value = 10 * value + (field.at[i] - '0');
    }
    *number = is_negative ? -value : value;
    return true;
}

static enum form_fault read_columns(const struct field *fields, const struct form *form, struct event *event,
                                    unsigned *column) {
    for (unsigned i = 0; i < form->columns; i++) {
        struct range range = form->ranges[i];
        if (event->kind == EVENT_READ && i == 2)
            range.most = event->numbers[1];
        if (event->kind == EVENT_READ && i == 3)
            range.least = event->numbers[1];
        *column = i + 2;
        if (!read_number(fields[i], &event->numbers[i]))
            return FORM_NOT_A_NUMBER;
        if (event->numbers[i] < range.least || event->numbers[i] > range.most)
            return FORM_OUT_OF_RANGE;
    }
    return FORM_DONE;
}

enum form_fault event_read(const uint8_t **at, const uint8_t *end, struct event *event, unsigned *column) {
    const uint8_t *feed = (const uint8_t *)memchr(*at, '\n', (size_t)(end - *at));
    const uint8_t *record_end = feed != NULL ? feed : end, *rest = *at;
    struct field kind = next_field(&rest, record_end), fields[MOST_COLUMNS];
    unsigned count = 0;
    for (; rest != NULL; count++) {
        struct field field = next_field(&rest, record_end);
        if (count < MOST_COLUMNS)
            fields[count] = field;
    }
    *at = feed != NULL ? feed + 1 : end;
    for (unsigned i = 0; i < sizeof forms / sizeof forms[0]; i++) {
        if (!is_word(kind, forms[i].word))
            continue;
        struct event found = {(enum event_kind)i, {0}};
        enum form_fault fault =
            count != forms[i].columns ? FORM_FIELD_COUNT : read_columns(fields, &forms[i], &found, column);
        if (fault == FORM_DONE)
            *event = found;
        return fault;
    }
    return FORM_UNKNOWN_KIND;
}

struct sdm_reading event_reading(const struct event *event) {
    const int64_t *n = event->numbers;
    struct sdm_reading reading = {(uint32_t)n[0], (int32_t)n[1], (int32_t)n[2], (int32_t)n[3],
                                  (uint32_t)n[4], (int32_t)n[5], (uint32_t)n[6]};
    return reading;
}

uint32_t event_take(struct sdm *h, const struct event *event, struct sdm_row *row) {
    const int64_t *n = event->numbers;
    switch (event->kind) {
    case EVENT_READ: {
        struct sdm_reading reading = event_reading(event);
        return sdm_cycle(h, &reading, row);
    }
    case EVENT_END:
        return sdm_end(h, (uint32_t)n[0], (uint32_t)n[1], (uint32_t)n[2]);
    case EVENT_END_CALCULATED:
        return sdm_end_calculated(h, (uint32_t)n[0], (uint32_t)n[1], (uint32_t)n[2]);
    case EVENT_LIMIT:
        return sdm_limit(h, (uint32_t)n[0], (uint32_t)n[1]);
    case EVENT_RESTRICT: {
        struct sdm_restriction restriction = {(uint32_t)n[0], (uint32_t)n[1], (uint32_t)n[2], (uint32_t)n[3],
                                              (uint32_t)n[4]};
        return sdm_restrict(h, &restriction);
    }
    case EVENT_REVOKE:
        return sdm_revoke(h, (uint32_t)n[0]);
    }
    abort();
}

static bool is_same_place(struct sdm_place one, struct sdm_place other) {
    return one.mm == other.mm && one.is_some == other.is_some;
}

bool row_is_same(const struct sdm_row *one, const struct sdm_row *other) {
    return one->time_ds == other->time_ds && one->state == other->state && one->status == other->status &&
           one->tco == other->tco && one->sb == other->sb && one->eb == other->eb && one->covered == other->covered &&
           one->ceiling_kmh == other->ceiling_kmh && is_same_place(one->ebi, other->ebi) &&
           is_same_place(one->sbi, other->sbi) && is_same_place(one->warning, other->warning) &&
           is_same_place(one->permitted, other->permitted) && is_same_place(one->indication, other->indication);
}
