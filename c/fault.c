/* Misuses the library in each way that sdm.h defines, over the data of an input of the program's `run`, and fails each
 * allocation of sdm_open in turn. Link it with heap_test.c.
 *
 *     fault < INPUT
 *
 * It ends with 0 where every call answered as it should, changed nothing where it should change nothing, and no call
 * but sdm_open asked for memory; else it tells what differs and ends with 1. Where the data are refused there is no
 * supervisor to misuse: then the allocations alone are failed. */
#include "fault.h"

#include <inttypes.h>
#include <limits.h>
#include <stdlib.h>
#include <string.h>

enum { MOST_RESTRICTIONS = 32 };

static unsigned checks, failures;

void check(bool is_true, const char *fact, const char *of) {
    checks++;
    if (is_true)
        return;
    failures++;
    printf("fault: not so of %s: %s\n", of, fact);
}

void check_answer(uint32_t status, uint32_t due, const char *of) {
    check(status == due, "the status that is due is answered", of);
    if (status != due)
        printf("    %" PRIu32 " in the place of %" PRIu32 "\n", status, due);
}

void check_no_memory_moved(const char *of) {
    struct heap_counts counts = heap_test_counts();
    check(counts.asked == 0 && counts.given_back == 0, "no memory is asked for or given back", of);
}

bool is_same_handle(struct sdm one, struct sdm other) { return one.at == other.at && one.is_open == other.is_open; }

static bool is_closed(struct sdm h) {
    struct sdm closed = SDM_INIT;
    return is_same_handle(h, closed);
}

/* Whether all bytes of an output are still what `unwritten` made of them. */
static bool is_unwritten(const void *output, size_t bytes) {
    const uint8_t *at = (const uint8_t *)output;
    for (size_t i = 0; i < bytes; i++)
        if (at[i] != 0xa5)
            return false;
    return true;
}

static void unwritten(void *output, size_t bytes) { memset(output, 0xa5, bytes); }

/* Opens over a copy of the data at an odd address, which is gone once this returns: the library keeps none of it. */
static uint32_t open_over_a_copy(struct sdm *h, const uint8_t *data, size_t data_bytes, struct sdm_line *line) {
    uint8_t *block = (uint8_t *)malloc(data_bytes + 1);
    if (block == NULL)
        abort();
    memcpy(block + 1, data, data_bytes);
    uint32_t status = sdm_open(h, block + 1, data_bytes, line);
    memset(block, 0xff, data_bytes + 1);
    free(block);
    return status;
}

/* A call that is refused, told as an event. */
struct misuse {
    const char *what;
    uint32_t due;
    struct event event;
};

/* What each call but sdm_open and sdm_close answers where there is no supervisor. */
static const struct misuse without_supervisor[] = {
    {"a reading without supervisor", SDM_CLOSED, {EVENT_READ, {0, 0, 0, 0, 0, 0, 0}}},
    {"a reading out of range without supervisor", SDM_CLOSED, {EVENT_READ, {100000001, 0, 0, 0, 0, 0, 0}}},
    {"an end without supervisor", SDM_CLOSED, {EVENT_END, {0, 0, 0}}},
    {"a calculated end without supervisor", SDM_CLOSED, {EVENT_END_CALCULATED, {0, 0, 0}}},
    {"a limit without supervisor", SDM_CLOSED, {EVENT_LIMIT, {0, 1}}},
    {"a restriction without supervisor", SDM_CLOSED, {EVENT_RESTRICT, {0, 0, 1, 1, 0}}},
    {"a restriction out of range without supervisor", SDM_CLOSED, {EVENT_RESTRICT, {65536, 0, 1, 1, 0}}},
    {"a revocation without supervisor", SDM_CLOSED, {EVENT_REVOKE, {0}}},
    {"a revocation out of range without supervisor", SDM_CLOSED, {EVENT_REVOKE, {65536}}},
};

/* What is refused whatever the data are, once a reading at LAST_TIME was taken and a restriction HELD_ID is held. */
enum { LAST_TIME = 50 };

static const struct misuse misuses[] = {
    {"a time above its range", SDM_OUT_OF_RANGE, {EVENT_READ, {100000001, 0, 0, 0, 0, 0, 0}}},
    {"a time before the last", SDM_TIME_BACK, {EVENT_READ, {LAST_TIME - 1, 0, 0, 0, 0, 0, 0}}},
    {"a time before the last, out of range", SDM_OUT_OF_RANGE, {EVENT_READ, {LAST_TIME - 1, 0, 0, 0, 138889, 0, 0}}},
    {"front ends before their range", SDM_OUT_OF_RANGE, {EVENT_READ, {LAST_TIME, -10000001, -10000001, 0, 0, 0, 0}}},
    {"a min safe front end before its range", SDM_OUT_OF_RANGE, {EVENT_READ, {LAST_TIME, 0, -10000001, 0, 0, 0, 0}}},
    {"a min safe front end past the estimated one", SDM_OUT_OF_RANGE, {EVENT_READ, {LAST_TIME, 0, 1, 1, 0, 0, 0}}},
    {"a max safe front end before the estimated one", SDM_OUT_OF_RANGE, {EVENT_READ, {LAST_TIME, 0, -1, -1, 0, 0, 0}}},
    {"a max safe front end past its range", SDM_OUT_OF_RANGE, {EVENT_READ, {LAST_TIME, 0, 0, 110000001, 0, 0, 0}}},
    {"a speed above its range", SDM_OUT_OF_RANGE, {EVENT_READ, {LAST_TIME, 0, 0, 0, 138889, 0, 0}}},
    {"the greatest speed that can be written", SDM_OUT_OF_RANGE, {EVENT_READ, {LAST_TIME, 0, 0, 0, UINT32_MAX, 0, 0}}},
    {"an acceleration above its range", SDM_OUT_OF_RANGE, {EVENT_READ, {LAST_TIME, 0, 0, 0, 0, 301, 0}}},
    {"an acceleration below its range", SDM_OUT_OF_RANGE, {EVENT_READ, {LAST_TIME, 0, 0, 0, 0, -301, 0}}},
    {"an acceleration that is 1 in 16 bits", SDM_OUT_OF_RANGE, {EVENT_READ, {LAST_TIME, 0, 0, 0, 0, 65537, 0}}},
    {"an under-reading amount above its range", SDM_OUT_OF_RANGE, {EVENT_READ, {LAST_TIME, 0, 0, 0, 0, 0, 10001}}},
    {"an SvL before the EOA", SDM_SVL_BEFORE_EOA, {EVENT_END, {1, 0, 0}}},
    {"an SvL before the EOA, too fast", SDM_SVL_BEFORE_EOA, {EVENT_END, {1, 0, 501}}},
    {"an SvL past every track", SDM_BEYOND_TRACK, {EVENT_END, {0, 10000001, 0}}},
    {"an SvL past every track, too fast", SDM_BEYOND_TRACK, {EVENT_END, {0, UINT32_MAX, 501}}},
    {"a release speed that is too high", SDM_BAD_SPEED, {EVENT_END, {0, 0, 501}}},
    {"a release speed that is 1 in 16 bits", SDM_BAD_SPEED, {EVENT_END, {0, 0, 65537}}},
    {"a calculated end with its SvL before the EOA", SDM_SVL_BEFORE_EOA, {EVENT_END_CALCULATED, {1, 0, 0}}},
    {"a calculated end past every track", SDM_BEYOND_TRACK, {EVENT_END_CALCULATED, {0, 10000001, 0}}},
    {"a trip before the EOA", SDM_BAD_TRIP, {EVENT_END_CALCULATED, {1, 1, 0}}},
    {"a trip past the SvL", SDM_BAD_TRIP, {EVENT_END_CALCULATED, {0, 1, 2}}},
    {"a limit past every track", SDM_BEYOND_TRACK, {EVENT_LIMIT, {10000001, 100}}},
    {"a limit past every track, without speed", SDM_BEYOND_TRACK, {EVENT_LIMIT, {10000001, 0}}},
    {"a limit without speed", SDM_BAD_SPEED, {EVENT_LIMIT, {0, 0}}},
    {"a limit that is too fast", SDM_BAD_SPEED, {EVENT_LIMIT, {0, 501}}},
    {"a limit of a speed that is 1 in 16 bits", SDM_BAD_SPEED, {EVENT_LIMIT, {0, 65537}}},
    {"an identity above its range", SDM_OUT_OF_RANGE, {EVENT_RESTRICT, {65536, 0, 1, 100, 0}}},
    {"a restriction without speed", SDM_OUT_OF_RANGE, {EVENT_RESTRICT, {8, 0, 1, 0, 0}}},
    {"a restriction that is too fast", SDM_OUT_OF_RANGE, {EVENT_RESTRICT, {8, 0, 1, 501, 0}}},
    {"a restriction of a speed that is 1 in 16 bits", SDM_OUT_OF_RANGE, {EVENT_RESTRICT, {8, 0, 1, 65537, 0}}},
    {"a restriction with a flag of 2", SDM_OUT_OF_RANGE, {EVENT_RESTRICT, {8, 0, 1, 100, 2}}},
    {"a held restriction out of range", SDM_OUT_OF_RANGE, {EVENT_RESTRICT, {HELD_ID, 0, 1, 501, 0}}},
    {"a held restriction", SDM_ID_IN_USE, {EVENT_RESTRICT, {HELD_ID, 0, 1, 100, 0}}},
    {"a held restriction without length", SDM_ID_IN_USE, {EVENT_RESTRICT, {HELD_ID, 1, 1, 100, 0}}},
    {"a restriction without length", SDM_BAD_PLACES, {EVENT_RESTRICT, {8, 1, 1, 100, 0}}},
    {"a restriction that ends before its start", SDM_BAD_PLACES, {EVENT_RESTRICT, {8, 1, 0, 100, 0}}},
    {"a restriction past every track", SDM_BAD_PLACES, {EVENT_RESTRICT, {8, 0, 10000001, 100, 0}}},
    {"an unknown identity", SDM_UNKNOWN_ID, {EVENT_REVOKE, {8}}},
    {"an identity that is a held one in 16 bits", SDM_OUT_OF_RANGE, {EVENT_REVOKE, {65536 + HELD_ID}}},
};

/* Makes a call that is refused: it answers what is due, and writes nothing. Of a reading the display, the causes and
 * whether it would be covered are asked too, which know no last time. */
static void refuse(struct sdm *h, const struct misuse *misuse) {
    struct sdm before = *h;
    struct sdm_row row;
    struct sdm_display display;
    struct sdm_causes causes;
    unwritten(&row, sizeof row);
    unwritten(&display, sizeof display);
    unwritten(&causes, sizeof causes);
    heap_test_begin(0, 0);
    check_answer(event_take(h, &misuse->event, &row), misuse->due, misuse->what);
    if (misuse->event.kind == EVENT_READ && misuse->due != SDM_TIME_BACK) {
        struct sdm_reading reading = event_reading(&misuse->event);
        check_answer(sdm_display(h, &reading, &display), misuse->due, misuse->what);
        check_answer(sdm_causes(h, &reading, &causes), misuse->due, misuse->what);
        refuse_ahead(h, &reading, misuse->due, misuse->what);
    }
    check(is_unwritten(&row, sizeof row), "the row isn't written", misuse->what);
    check(is_unwritten(&display, sizeof display), "the display isn't written", misuse->what);
    check(is_unwritten(&causes, sizeof causes), "the causes aren't written", misuse->what);
    check(is_same_handle(*h, before), "the handle stays", misuse->what);
    check_no_memory_moved(misuse->what);
}

/* A handle without supervisor: each call is refused, and closing it does nothing, however often. */
static void misuse_closed(struct sdm *h, const char *what) {
    check(is_closed(*h), "the handle is as SDM_INIT", what);
    for (size_t i = 0; i < sizeof without_supervisor / sizeof without_supervisor[0]; i++)
        refuse(h, &without_supervisor[i]);
    heap_test_begin(0, 0);
    refuse_stops_closed(h);
    sdm_close(h);
    sdm_close(h);
    check(is_closed(*h), "the handle is as SDM_INIT after closing", what);
    check_no_memory_moved(what);
}

/* Data that are opened, what is said of them, and what the opening answers with ample memory. */
struct opening {
    const uint8_t *data;
    size_t data_bytes;
    const char *what;
    uint32_t status;
};

/* Closes what an opening left. */
static void close_all(struct sdm *h, const char *what) {
    sdm_close(h);
    check(is_closed(*h), "closing leaves the handle as SDM_INIT", what);
    check(heap_test_counts().held == 0, "closing gives all memory back", what);
}

/* Opens with some allocations failed: SDM_NO_MEMORY is answered, no memory is held, and handle and line stay. An
 * allocation that is failed alone may have been asked for once more; then all is as with ample memory. */
static void fail_some(const struct opening *opening, unsigned long first, unsigned long last) {
    struct sdm h = SDM_INIT;
    struct sdm_line line;
    unwritten(&line, sizeof line);
    heap_test_begin(first, last);
    uint32_t status = open_over_a_copy(&h, opening->data, opening->data_bytes, &line);
    if (first == last && status == opening->status) {
        close_all(&h, opening->what);
        return;
    }
    check_answer(status, SDM_NO_MEMORY, opening->what);
    check(is_closed(h), "the handle stays without supervisor", opening->what);
    check(is_unwritten(&line, sizeof line), "the line isn't written", opening->what);
    check(heap_test_counts().held == 0, "no memory is held", opening->what);
}

/* Fails each allocation of an opening in turn, alone and with all that come after it. What the opening answers with
 * ample memory. */
static uint32_t fail_allocations(const uint8_t *data, size_t data_bytes, const char *what) {
    struct sdm h = SDM_INIT;
    struct sdm_line line;
    unwritten(&line, sizeof line);
    heap_test_begin(0, 0);
    struct opening opening = {data, data_bytes, what, open_over_a_copy(&h, data, data_bytes, &line)};
    struct heap_counts counts = heap_test_counts();
    printf("fault: sdm_open over %s answers %" PRIu32
           "; it asks %lu times for memory, for %zu bytes at most at a time, "
           "and holds %zu of them in %lu blocks\n",
           what, opening.status, counts.asked, counts.most_bytes, counts.bytes, counts.held);
    close_all(&h, what);
    for (unsigned long n = 1; n <= counts.asked && failures == 0; n++) {
        fail_some(&opening, n, n);
        fail_some(&opening, n, ULONG_MAX);
    }
    return opening.status;
}

/* A text that is no data part: its line is written, and nothing else. */
static void refuse_data(const char *data, const char *due) {
    static const char what[] = "data that are refused";
    const uint8_t *bytes = (const uint8_t *)data;
    struct sdm h = SDM_INIT;
    struct sdm_line line;
    check_answer(fail_allocations(bytes, strlen(data), what), SDM_BAD_DATA, what);
    unwritten(&line, sizeof line);
    heap_test_begin(0, 0);
    check_answer(open_over_a_copy(&h, bytes, strlen(data), &line), SDM_BAD_DATA, what);
    check(line.count == strlen(due) && memcmp(line.bytes, due, strlen(due)) == 0, "the line is the program's", what);
    check(is_closed(h), "there is no supervisor", what);
    check(heap_test_counts().held == 0, "no memory is held", what);
}

/* A second opening, over good data and over bad ones. */
static void open_twice(struct sdm *h, const struct journey *journey) {
    struct sdm before = *h;
    struct sdm_line line;
    unwritten(&line, sizeof line);
    heap_test_begin(0, 0);
    check_answer(sdm_open(h, journey->data, journey->data_bytes, &line), SDM_IN_USE, "a second opening");
    check_answer(sdm_open(h, journey->data, 0, &line), SDM_IN_USE, "a second opening over no data");
    check(is_unwritten(&line, sizeof line), "the line isn't written", "a second opening");
    check(is_same_handle(*h, before), "the handle stays", "a second opening");
    check_no_memory_moved("a second opening");
}

void compare(struct sdm *h, struct sdm *twin, const struct event *reading, const char *what) {
    struct sdm_row row, twins_row;
    unwritten(&row, sizeof row);
    unwritten(&twins_row, sizeof twins_row);
    check_answer(event_take(h, reading, &row), SDM_DONE, what);
    check_answer(event_take(twin, reading, &twins_row), SDM_DONE, what);
    check(row_is_same(&row, &twins_row), "the next row is as that of a supervisor that wasn't misused", what);
}

/* Takes as many restrictions as may be, and refuses one more. */
static void fill(struct sdm *h, struct sdm *twin, const struct event *reading) {
    static const struct misuse one_more[] = {
        {"one restriction more", SDM_FULL, {EVENT_RESTRICT, {65535, 0, 1, 100, 0}}},
        {"one restriction more, which is held", SDM_FULL, {EVENT_RESTRICT, {HELD_ID, 0, 1, 100, 0}}},
    };
    struct event more = {EVENT_RESTRICT, {0, 0, 1, 500, 1}};
    for (more.numbers[0] = 100; more.numbers[0] < 100 + MOST_RESTRICTIONS - 1; more.numbers[0]++) {
        check_answer(event_take(h, &more, NULL), SDM_DONE, "a restriction");
        check_answer(event_take(twin, &more, NULL), SDM_DONE, "a restriction");
    }
    for (size_t i = 0; i < sizeof one_more / sizeof one_more[0]; i++) {
        refuse(h, &one_more[i]);
        compare(h, twin, reading, one_more[i].what);
    }
}

/* The first reading of a journey, at LAST_TIME; one at the track's start, where it has none. */
static struct event a_reading(const struct journey *journey) {
    struct event event = {EVENT_READ, {LAST_TIME, 0, 0, 0, 20000, 0, 0}};
    const uint8_t *at = journey->records;
    unsigned column;
    while (at < journey->end) {
        struct event found;
        if (event_read(&at, journey->end, &found, &column) == FORM_DONE && found.kind == EVENT_READ) {
            event = found;
            event.numbers[0] = LAST_TIME;
            break;
        }
    }
    return event;
}

/* Misuses an open supervisor beside a twin that isn't misused. */
static void misuse_open(struct sdm *h, struct sdm *twin, const struct journey *journey) {
    struct event reading = a_reading(journey), restriction = {EVENT_RESTRICT, {HELD_ID, 0, 1, 500, 0}};
    open_twice(h, journey);
    compare(h, twin, &reading, "a second opening");
    misuse_change(h, twin, &reading);
    change_data(h, twin, journey, &reading, "a change of data");
    check_answer(event_take(h, &restriction, NULL), SDM_DONE, "a restriction");
    check_answer(event_take(twin, &restriction, NULL), SDM_DONE, "a restriction");
    for (size_t i = 0; i < sizeof misuses / sizeof misuses[0]; i++) {
        refuse(h, &misuses[i]);
        compare(h, twin, &reading, misuses[i].what);
    }
    heap_test_begin(0, 0);
    misuse_stops(h);
    check_no_memory_moved("where a train stops, misused");
    compare(h, twin, &reading, "where a train stops, misused");
    fill(h, twin, &reading);
    change_data(h, twin, journey, &reading, "a change of data with all restrictions");
}

/* The causes of a reading tell its commands, and a cause wherever one of them is set. */
static void check_standings(const struct sdm_causes *causes, const struct sdm_row *row) {
    static const char of[] = "causes";
    bool serv = causes->serv.rule != SDM_NO_RULE, emer = causes->emer.rule != SDM_NO_RULE;
    bool any = serv || emer || causes->warn.rule != SDM_NO_RULE;
    check((causes->tco != SDM_OFF) == (row->tco == 1), "they tell of the traction cut-off", of);
    check((causes->sb != SDM_OFF) == (row->sb == 1), "they tell of the service brake", of);
    check((causes->eb != SDM_OFF) == (row->eb == 1), "they tell of the emergency brake", of);
    check((causes->tco == SDM_SET) == any, "the traction cut-off is set where it has a cause", of);
    check(causes->sb != SDM_SET || serv, "the service brake is set where it has a cause", of);
    check((causes->eb == SDM_SET) == emer, "the emergency brake is set where it has a cause", of);
}

/* Takes a record; of a reading that is taken all else is asked, too. Whether it is one. */
static bool play_record(struct sdm *h, const struct event *event) {
    struct sdm_row row;
    struct sdm_display display;
    struct sdm_causes causes;
    struct ahead ahead = {0, 0};
    unwritten(&row, sizeof row);
    unwritten(&display, sizeof display);
    unwritten(&causes, sizeof causes);
    bool is_reading = event->kind == EVENT_READ;
    struct sdm_reading reading = {0, 0, 0, 0, 0, 0, 0};
    if (is_reading) {
        reading = event_reading(event);
        ask_ahead(h, &reading, &ahead);
    }
    if (event_take(h, event, &row) != SDM_DONE || !is_reading)
        return false;
    check_ahead(&ahead, &row);
    check_answer(sdm_display(h, &reading, &display), SDM_DONE, "a display");
    check_answer(sdm_causes(h, &reading, &causes), SDM_DONE, "causes");
    check_standings(&causes, &row);
    return true;
}

/* Plays the whole journey: no record takes memory, and a handle may be moved. */
static void play(struct sdm *h, const struct journey *journey) {
    const uint8_t *at = journey->records;
    unsigned column, readings = 0;
    heap_test_begin(0, 0);
    while (at < journey->end) {
        struct event event;
        struct sdm moved = *h, closed = SDM_INIT;
        *h = closed;
        if (event_read(&at, journey->end, &event, &column) == FORM_DONE && play_record(&moved, &event))
            readings++;
        *h = moved;
    }
    check_no_memory_moved("a journey");
    printf("fault: %u readings of the journey were judged without memory\n", readings);
}

/* All of it, over a journey whose data are taken. */
static void misuse_supervisor(const struct journey *journey) {
    struct sdm h = SDM_INIT, twin = SDM_INIT, player = SDM_INIT;
    struct sdm_line line;
    unwritten(&line, sizeof line);
    misuse_closed(&h, "a handle that was never opened");
    heap_test_begin(0, 0);
    check_answer(open_over_a_copy(&h, journey->data, journey->data_bytes, &line), SDM_DONE, "an opening");
    check_answer(open_over_a_copy(&twin, journey->data, journey->data_bytes, &line), SDM_DONE, "an opening beside it");
    check_answer(open_over_a_copy(&player, journey->data, journey->data_bytes, &line), SDM_DONE,
                 "an opening beside both");
    check(is_unwritten(&line, sizeof line), "the line isn't written", "an opening");
    misuse_open(&h, &twin, journey);
    play(&player, journey);
    sdm_close(&player);
    sdm_close(&h);
    misuse_closed(&h, "a handle that was closed");
    check_answer(open_over_a_copy(&h, journey->data, journey->data_bytes, &line), SDM_DONE, "an opening after closing");
    sdm_close(&h);
    sdm_close(&twin);
    check(heap_test_counts().held == 0, "closing gives all memory back", "the supervisors");
}

int main(void) {
    struct journey journey;
    if (journey_read(stdin, &journey) != JOURNEY_READ) {
        fprintf(stderr, "usage: fault < INPUT, whose records are plain\n");
        return 64;
    }
    check(sdm_layout() == SDM_LAYOUT, "it is that of sdm.h", "the layout");
    check(sdm_version() == SDM_VERSION, "it is that of sdm.h", "the version");
    tell_texts();
    name_fields();
    ask_stops();
    ask_at_a_fall();
    refuse_data("", "sdm: bad data: missing version\n");
    refuse_data("version = ", "sdm: bad data: not TOML\n");
    refuse_data("version = 1\n", "sdm: bad data: missing train\n");
    if (fail_allocations(journey.data, journey.data_bytes, "the data of the input") == SDM_DONE)
        misuse_supervisor(&journey);
    journey_free(&journey);
    printf("fault: %u checks, %u failed\n", checks, failures);
    return failures != 0;
}
