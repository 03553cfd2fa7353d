/* Plays packed journeys on the library, whichever it is: the archive, or the C source. It takes memory for the structs
 * and `putchar` alone, so that it runs on a target with nothing else. */
#include "run_packed.h"
#include "sdm.h"

#include <string.h>

int putchar(int character);

enum { RUN, DISPLAY, WHY };
enum { READ, END, END_CALCULATED, LIMIT, RESTRICT, REVOKE, CHANGE, LAST };
enum { MOST_NUMBERS = 7 };

static const unsigned counts[] = {7, 3, 3, 2, 5, 1}; /* of the numbers of each kind of record */

/* What is played: the bytes that are left, and where it is. */
struct play {
    const uint8_t *at;
    const uint8_t *name;
    size_t name_bytes;
    unsigned told, step;
    unsigned long readings;
    struct sdm h;
};

static void put_text(const char *text) {
    while (*text != 0)
        putchar(*text++);
}

static void put_digits(uint64_t value) {
    if (value >= 10)
        put_digits(value / 10);
    putchar((int)('0' + value % 10));
}

/* A text and a number behind it. */
static void put(const char *before, int64_t value) {
    put_text(before);
    if (value < 0)
        putchar('-');
    put_digits(value < 0 ? 0 - (uint64_t)value : (uint64_t)value);
}

/* The next number. */
static int64_t number(struct play *play) {
    uint64_t found = 0;
    for (unsigned shift = 0;; shift += 7) {
        uint8_t byte = *play->at++;
        found |= (uint64_t)(byte & 0x7f) << shift;
        if (byte < 0x80)
            break;
    }
    return (found & 1) != 0 ? -(int64_t)(found >> 1) - 1 : (int64_t)(found >> 1);
}

/* The next text: where it begins, and how many bytes it has. */
static const uint8_t *text(struct play *play, size_t *count) {
    *count = (size_t)number(play);
    const uint8_t *begin = play->at;
    play->at += *count;
    return begin;
}

/* Whether something is as it is due; where it isn't it is told. */
static bool is_due(const struct play *play, const char *what, int64_t found, int64_t due) {
    if (found == due)
        return true;
    put_text("differs: ");
    for (size_t i = 0; i < play->name_bytes; i++)
        putchar(play->name[i]);
    put(", step ", play->step);
    put_text(", ");
    put_text(what);
    put(": ", found);
    put(", due ", due);
    putchar('\n');
    return false;
}

/* Whether something is the next number. */
static bool is_next(struct play *play, const char *what, int64_t found) {
    return is_due(play, what, found, number(play));
}

/* Opens a handle over the next data part, and looks at the status and the line. */
static bool open_next(struct play *play, struct sdm *h, bool *is_open) {
    static struct sdm_line line;
    size_t bytes, due_bytes;
    const uint8_t *data = text(play, &bytes);
    int64_t due = number(play);
    const uint8_t *due_line = text(play, &due_bytes);
    line.count = 0;
    uint32_t status = sdm_open(h, data, bytes, &line);
    *is_open = status == SDM_DONE;
    if (!is_due(play, "status of the opening", status, due) ||
        !is_due(play, "bytes of the line", line.count, (int64_t)due_bytes))
        return false;
    return is_due(play, "line", memcmp(line.bytes, due_line, due_bytes) != 0, 0);
}

static bool is_place(struct play *p, const char *what, struct sdm_place place) {
    return is_next(p, what, place.is_some) && is_next(p, what, place.mm);
}

static bool is_row(struct play *p, const struct sdm_row *row) {
    return is_next(p, "time", row->time_ds) && is_next(p, "state", row->state) && is_next(p, "status", row->status) &&
           is_next(p, "tco", row->tco) && is_next(p, "sb", row->sb) && is_next(p, "eb", row->eb) &&
           is_next(p, "covered", row->covered) && is_next(p, "ceiling", row->ceiling_kmh) &&
           is_place(p, "ebi", row->ebi) && is_place(p, "sbi", row->sbi) && is_place(p, "warning", row->warning) &&
           is_place(p, "permitted", row->permitted) && is_place(p, "indication", row->indication);
}

static bool is_display(struct play *p, const struct sdm_display *shown) {
    return is_next(p, "time", shown->time_ds) && is_next(p, "permitted", shown->permitted_kmh) &&
           is_next(p, "sbi", shown->sbi_kmh) && is_next(p, "ebi", shown->ebi_kmh) &&
           is_next(p, "release", shown->release_kmh) && is_next(p, "kind", shown->target) &&
           is_next(p, "distance", shown->distance_mm);
}

static bool is_cause(struct play *p, const char *what, const struct sdm_cause *cause) {
    return is_next(p, what, cause->rule) && is_next(p, what, cause->target) && is_next(p, what, cause->target_mm) &&
           is_next(p, what, cause->target_kmh) && is_next(p, what, cause->limit_mm);
}

static bool is_causes(struct play *p, const struct sdm_causes *causes) {
    return is_next(p, "time", causes->time_ds) && is_next(p, "tco", causes->tco) && is_next(p, "sb", causes->sb) &&
           is_next(p, "eb", causes->eb) && is_cause(p, "over", &causes->over) && is_cause(p, "warn", &causes->warn) &&
           is_cause(p, "serv", &causes->serv) && is_cause(p, "emer", &causes->emer);
}

/* Whether what is told of a reading, once its row is there, is what comes next. */
static bool is_told(struct play *play, const struct sdm_reading *reading, const struct sdm_row *row) {
    static struct sdm_display display;
    static struct sdm_causes causes;
    const char *what = "status of what is told";
    if (play->told == RUN)
        return is_row(play, row);
    if (play->told == DISPLAY)
        return is_due(play, what, sdm_display(&play->h, reading, &display), SDM_DONE) && is_display(play, &display);
    return is_due(play, what, sdm_causes(&play->h, reading, &causes), SDM_DONE) && is_causes(play, &causes);
}

static bool play_reading(struct play *play, const int64_t *n) {
    static struct sdm_row row;
    const struct sdm_reading reading = {(uint32_t)n[0], (int32_t)n[1], (int32_t)n[2], (int32_t)n[3],
                                        (uint32_t)n[4], (int32_t)n[5], (uint32_t)n[6]};
    int64_t due = number(play);
    if (!is_due(play, "status", sdm_cycle(&play->h, &reading, &row), due))
        return false;
    if (due != SDM_DONE)
        return true;
    play->readings++;
    return is_told(play, &reading, &row);
}

/* Hands over a record that is no reading. */
static uint32_t take(struct sdm *h, unsigned kind, const int64_t *n) {
    const struct sdm_restriction restriction = {(uint32_t)n[0], (uint32_t)n[1], (uint32_t)n[2], (uint32_t)n[3],
                                                (uint32_t)n[4]};
    switch (kind) {
    case END:
        return sdm_end(h, (uint32_t)n[0], (uint32_t)n[1], (uint32_t)n[2]);
    case END_CALCULATED:
        return sdm_end_calculated(h, (uint32_t)n[0], (uint32_t)n[1], (uint32_t)n[2]);
    case LIMIT:
        return sdm_limit(h, (uint32_t)n[0], (uint32_t)n[1]);
    case RESTRICT:
        return sdm_restrict(h, &restriction);
    default:
        return sdm_revoke(h, (uint32_t)n[0]);
    }
}

/* Opens the next supervisor, which takes over; the one before is closed. */
static bool change(struct play *play) {
    struct sdm next = SDM_INIT;
    bool is_open;
    if (!open_next(play, &next, &is_open))
        return false;
    uint32_t status = sdm_take_over(&next, &play->h);
    if (status == SDM_DONE) {
        struct sdm before = play->h;
        play->h = next;
        next = before;
    }
    sdm_close(&next);
    return is_due(play, "status of the change", status, number(play));
}

static bool play_steps(struct play *play) {
    for (play->step = 1;; play->step++) {
        unsigned kind = (unsigned)number(play);
        int64_t numbers[MOST_NUMBERS] = {0};
        if (kind == LAST)
            return true;
        for (unsigned i = 0; kind < CHANGE && i < counts[kind]; i++)
            numbers[i] = number(play);
        bool is_same = kind == CHANGE ? change(play)
                       : kind == READ ? play_reading(play, numbers)
                                      : is_due(play, "status", take(&play->h, kind, numbers), number(play));
        if (!is_same)
            return false;
    }
}

static bool play_journey(struct play *play) {
    bool is_open;
    play->name = text(play, &play->name_bytes);
    play->told = (unsigned)number(play);
    play->step = 0;
    bool is_same = open_next(play, &play->h, &is_open) && play_steps(play);
    sdm_close(&play->h);
    return is_same;
}

bool run_packed(const uint8_t *bytes, size_t count) {
    struct play play = {bytes, bytes, 0, RUN, 0, 0, SDM_INIT};
    const uint8_t *end = bytes + count;
    if (sdm_layout() != SDM_LAYOUT) {
        put_text("differs: the library is of another layout than sdm.h, or has too little memory\n");
        return false;
    }
    int64_t journeys = number(&play);
    for (int64_t i = 0; i < journeys; i++)
        if (!play_journey(&play))
            return false;
    put(play.at == end ? "pass: " : "differs: bytes are left after ", journeys);
    put(" journeys, ", (int64_t)play.readings);
    put_text(" readings\n");
    return play.at == end;
}
