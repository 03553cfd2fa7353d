/* Plays a recorded journey on the library: reads an input of the program's `run` from standard input, hands each
 * record to the supervisor as an onboard computer would, and writes what the program writes, to the byte.
 *
 *     replay run       the rows of `sdm run`
 *     replay display   the lines of `sdm display`
 *     replay why       the lines of `sdm why`
 *     replay ask       what else may be asked of each reading, for which the program has no command: its time, whether it
 *                      would be covered, whether each up to it would be, whether the authority in force has a trip place
 *                      for its bounds, and the first place that it is clear of with them
 *
 * Each word behind it names a file with a further input: a change of data. A supervisor that is opened over its data
 * takes over from the one before, and is handed its records, whose numbers go on. Where the change is refused, the exit
 * status is 9.
 *
 * Rows, fault lines and exit status are those of docs/FORMATS.md, "How a run ends". An input whose records aren't
 * plain (journey.h) isn't taken, and nothing is written but that; so are other words. The exit status is then 64. */
#include "journey.h"

#include <inttypes.h>
#include <stdlib.h>
#include <string.h>

enum { MOST_RECORDS = 100000 };

/* How the program ends. */
enum outcome {
    OUTCOME_DONE = 0,
    OUTCOME_READ_FAULT = 2,
    OUTCOME_WRITE_FAULT = 3,
    OUTCOME_TOO_LONG = 4,
    OUTCOME_BAD_DATA = 5,
    OUTCOME_REFUSED = 6,
    OUTCOME_BAD_EVENT = 7,
    OUTCOME_NO_MEMORY = 8,
    OUTCOME_CHANGE_REFUSED = 9,
    OUTCOME_NOT_TAKEN = 64,
    OUTCOME_WRONG_LIBRARY = 65
};

/* What is told of each reading. */
enum told { TOLD_ROWS, TOLD_DISPLAYS, TOLD_CAUSES, TOLD_ASKED };

static enum outcome tell(enum outcome outcome, const char *line) {
    fprintf(stderr, "%s\n", line);
    return outcome;
}

static void put_place(struct sdm_place place) {
    if (place.is_some)
        printf(",%" PRId64, place.mm);
    else
        printf(",-");
}

static void put_row(const struct sdm_row *row) {
    printf("%" PRIu32 ",%c,%c,", row->time_ds, "CTR"[row->state], "NIOWX"[row->status]);
    printf("%" PRIu32 ",%" PRIu32 ",%" PRIu32 ",%" PRIu32 ",%" PRIu32, row->tco, row->sb, row->eb, row->covered,
           row->ceiling_kmh);
    put_place(row->ebi);
    put_place(row->sbi);
    put_place(row->warning);
    put_place(row->permitted);
    put_place(row->indication);
    putchar('\n');
}

static void put_display(const struct sdm_display *display) {
    printf("%" PRIu32 ",%" PRIu32 ",%" PRIu32 ",%" PRIu32 ",%" PRIu32, display->time_ds, display->permitted_kmh,
           display->sbi_kmh, display->ebi_kmh, display->release_kmh);
    if (display->target == SDM_NO_TARGET)
        printf(",-,-\n");
    else
        printf(",%c,%" PRId64 "\n", "-MESL"[display->target], display -> distance_mm);
}

static void put_cause(const struct sdm_cause *cause) {
    static const char *const rules[] = {
        "-", "ceiling", "target", "end of authority", "release speed", "no service brake"};
    printf(",%s", rules[cause->rule]);
    if (cause->rule != SDM_PAST_TARGET)
        return;
    char letter = "-MESL"[cause->target];
    printf(" %c %" PRId64 " %" PRIu32 " %" PRId64, letter, cause->target_mm, cause->target_kmh, cause->limit_mm);
}

static void put_causes(const struct sdm_causes *causes) {
    static const char *const standings[] = {"off", "set", "held until permitted speed", "held until standstill",
                                            "held until standstill or permitted speed"};
    printf("%" PRIu32, causes->time_ds);
    put_cause(&causes->over);
    put_cause(&causes->warn);
    put_cause(&causes->serv);
    put_cause(&causes->emer);
    printf(",%s,%s,%s\n", standings[causes->tco], standings[causes->sb], standings[causes->eb]);
}

static uint32_t show(struct sdm *h, const struct sdm_reading *reading) {
    struct sdm_display display;
    memset(&display, 0, sizeof display);
    uint32_t status = sdm_display(h, reading, &display);
    if (status == SDM_DONE)
        put_display(&display);
    return status;
}

static uint32_t explain(struct sdm *h, const struct sdm_reading *reading) {
    struct sdm_causes causes;
    memset(&causes, 0, sizeof causes);
    uint32_t status = sdm_causes(h, reading, &causes);
    if (status == SDM_DONE)
        put_causes(&causes);
    return status;
}

/* Asks what the commands don't depend on, with the bounds of the reading itself. */
static uint32_t ask(struct sdm *h, const struct sdm_reading *reading) {
    const uint32_t width_cm = ((uint32_t)(reading->max_mm - reading->min_mm) + 9) / 10;
    const uint32_t gain_cm_s2 = reading->accel_cm_s2 > 0 ? (uint32_t)reading->accel_cm_s2 : 0;
    struct sdm_allowance allowance = {(uint32_t)(reading->max_mm - reading->est_mm), reading->under_mm_s, gain_cm_s2};
    struct sdm_place first = {0, 0};
    uint32_t is_covered = 0, is_each_covered = 0, has_place = 0;
    if (allowance.front_mm > 10000000)
        allowance.front_mm = 10000000;
    uint32_t status = sdm_would_cover(h, reading, &is_covered);
    if (status == SDM_DONE)
        status = sdm_would_cover_up_to(h, reading, &is_each_covered);
    if (status == SDM_DONE)
        status = sdm_has_trip_place(h, width_cm, reading->under_mm_s, &has_place);
    if (status == SDM_DONE)
        status = sdm_clear_of(h, reading, &allowance, &first);
    if (status == SDM_DONE) {
        printf("%" PRIu32 ",%" PRIu32 ",%" PRIu32 ",%" PRIu32, reading->time_ds, is_covered, is_each_covered,
               has_place);
        put_place(first);
        putchar('\n');
    }
    return status;
}

/* Writes what a reading leads to once its row is there. */
static uint32_t put_reading(struct sdm *h, enum told told, const struct event *event, const struct sdm_row *row) {
    struct sdm_reading reading = event_reading(event);
    switch (told) {
    case TOLD_DISPLAYS:
        return show(h, &reading);
    case TOLD_CAUSES:
        return explain(h, &reading);
    case TOLD_ASKED:
        return ask(h, &reading);
    case TOLD_ROWS:
        put_row(row);
    }
    return SDM_DONE;
}

/* The text of a refusal that a record can lead to; null where there is none. */
static const char *text_of(uint32_t status) {
    switch (status) {
    case SDM_TIME_BACK:
        return "time back";
    case SDM_SVL_BEFORE_EOA:
        return "supervised location before end";
    case SDM_BEYOND_TRACK:
        return "beyond track";
    case SDM_BAD_TRIP:
        return "bad trip place";
    case SDM_FULL:
        return "too many restrictions";
    case SDM_ID_IN_USE:
        return "identity in use";
    case SDM_BAD_PLACES:
        return "restriction value";
    case SDM_UNKNOWN_ID:
        return "identity unknown";
    default:
        return NULL;
    }
}

static bool is_written(void) { return fflush(stdout) == 0 && !ferror(stdout); }

/* Tells why a record is refused, once the rows before it are out: a fault of writing goes before it. */
static enum outcome bad_event(unsigned number, const char *text) {
    if (!is_written())
        return OUTCOME_WRITE_FAULT;
    fprintf(stderr, "sdm: bad event %u: %s\n", number, text);
    return OUTCOME_BAD_EVENT;
}

static enum outcome bad_form(unsigned number, enum form_fault fault, unsigned column) {
    char text[40];
    switch (fault) {
    case FORM_UNKNOWN_KIND:
        return bad_event(number, "unknown kind");
    case FORM_FIELD_COUNT:
        return bad_event(number, "field count");
    default:
        snprintf(text, sizeof text, "field %u: %s", column,
                 fault == FORM_NOT_A_NUMBER ? "not a number" : "out of range");
        return bad_event(number, text);
    }
}

/* Hands over a record, and writes what it leads to. */
static enum outcome play_record(struct sdm *h, enum told told, unsigned number, const uint8_t **at,
                                const uint8_t *end) {
    struct event event;
    unsigned column = 0;
    if (number > MOST_RECORDS)
        return bad_event(number, "too many events");
    enum form_fault fault = event_read(at, end, &event, &column);
    if (fault != FORM_DONE)
        return bad_form(number, fault, column);
    struct sdm_row row;
    memset(&row, 0, sizeof row);
    uint32_t status = event_take(h, &event, &row);
    if (status == SDM_DONE && event.kind == EVENT_READ)
        status = put_reading(h, told, &event, &row);
    if (status == SDM_DONE)
        return OUTCOME_DONE;
    const char *text = text_of(status);
    if (text != NULL)
        return bad_event(number, text);
    fprintf(stderr, "replay: record %u is answered by %" PRIu32 "\n", number, status);
    return OUTCOME_WRONG_LIBRARY;
}

/* Plays the records of an input, the first of which has the number *number, and moves that behind the last. */
static enum outcome play(struct sdm *h, enum told told, const struct journey *journey, unsigned *number) {
    const uint8_t *at = journey->records;
    enum outcome outcome = OUTCOME_DONE;
    for (; outcome == OUTCOME_DONE && at < journey->end; ++*number)
        outcome = play_record(h, told, *number, &at, journey->end);
    return outcome;
}

/* Opens the supervisor; of data that are refused the line is told. */
static enum outcome open_supervisor(struct sdm *h, const struct journey *journey) {
    struct sdm_line line;
    memset(&line, 0, sizeof line);
    uint32_t status = sdm_open(h, journey->data, journey->data_bytes, &line);
    switch (status) {
    case SDM_DONE:
        return OUTCOME_DONE;
    case SDM_NO_MEMORY:
        return tell(OUTCOME_NO_MEMORY, "sdm: no memory");
    case SDM_BAD_DATA:
    case SDM_REFUSED:
        fwrite(line.bytes, 1, line.count, stderr);
        return status == SDM_BAD_DATA ? OUTCOME_BAD_DATA : OUTCOME_REFUSED;
    default:
        fprintf(stderr, "replay: the opening is answered by %" PRIu32 "\n", status);
        return OUTCOME_WRONG_LIBRARY;
    }
}

static enum outcome end_of(enum journey_end end) {
    switch (end) {
    case JOURNEY_READ:
        return OUTCOME_DONE;
    case JOURNEY_READ_FAULT:
        return tell(OUTCOME_READ_FAULT, "sdm: read fault");
    case JOURNEY_NO_MEMORY:
        return tell(OUTCOME_NO_MEMORY, "sdm: no memory");
    case JOURNEY_TOO_LONG:
        return tell(OUTCOME_TOO_LONG, "sdm: input too long");
    case JOURNEY_NO_DIVIDING_LINE:
        return tell(OUTCOME_BAD_DATA, "sdm: bad data: no %% line");
    case JOURNEY_NOT_PLAIN:
        return tell(OUTCOME_NOT_TAKEN, "replay: the records have a quote, a blank line, a CR or a byte order mark");
    }
    abort();
}

/* Lets the next supervisor take over, where one runs already: then h is the next, and next the one before. */
static enum outcome change_over(struct sdm *h, struct sdm *next, bool is_first) {
    uint32_t status = is_first ? (uint32_t)SDM_DONE : sdm_take_over(next, h);
    if (status != SDM_DONE) {
        if (!is_written())
            return OUTCOME_WRITE_FAULT;
        fprintf(stderr, "replay: the change of data is answered by %" PRIu32 "\n", status);
        return OUTCOME_CHANGE_REFUSED;
    }
    struct sdm before = *h;
    *h = *next;
    *next = before;
    return OUTCOME_DONE;
}

/* Plays an input: the first one, or a change of data and the records after it. */
static enum outcome play_part(struct sdm *h, enum told told, FILE *from, unsigned *number) {
    struct journey journey;
    struct sdm next = SDM_INIT;
    enum outcome outcome = end_of(journey_read(from, &journey));
    if (outcome != OUTCOME_DONE)
        return outcome;
    outcome = open_supervisor(&next, &journey);
    if (outcome == OUTCOME_DONE)
        outcome = change_over(h, &next, from == stdin);
    sdm_close(&next);
    if (outcome == OUTCOME_DONE)
        outcome = play(h, told, &journey, number);
    journey_free(&journey);
    return outcome;
}

/* Plays standard input, and then each file that a word names. */
static enum outcome replay(enum told told, char **further) {
    struct sdm h = SDM_INIT;
    unsigned number = 1;
    enum outcome outcome = play_part(&h, told, stdin, &number);
    for (; outcome == OUTCOME_DONE && *further != NULL; further++) {
        FILE *from = fopen(*further, "rb");
        if (from == NULL) {
            outcome = tell(OUTCOME_READ_FAULT, "sdm: read fault");
            break;
        }
        outcome = play_part(&h, told, from, &number);
        fclose(from);
    }
    sdm_close(&h);
    return outcome;
}

int main(int count, char **words) {
    static const char *const commands[] = {"run", "display", "why", "ask"}; /* in the order of enum told */
    unsigned told = 0;
    while (count >= 2 && told <= TOLD_ASKED && strcmp(words[1], commands[told]) != 0)
        told++;
    if (count < 2 || told > TOLD_ASKED)
        return tell(OUTCOME_NOT_TAKEN, "usage: replay run|display|why|ask [NEXT..] < INPUT");
    if (sdm_layout() != SDM_LAYOUT)
        return tell(OUTCOME_WRONG_LIBRARY, "replay: the library is of another layout than sdm.h");
    enum outcome outcome = replay((enum told)told, words + 2);
    if (!is_written())
        return tell(OUTCOME_WRITE_FAULT, "sdm: write fault");
    return outcome;
}
