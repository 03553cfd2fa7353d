/* An onboard computer's loop in small: how a builder calls the library, and what an answer asks of the interfaces. It
 * takes an input of the program's `run` from standard input and writes what is ordered after each record.
 *
 *     onboard [NEXT..] < INPUT
 *
 * Each word names a file with a further input, whose data take the place of the old ones in motion: a change of data.
 *
 * crates/sdm_onboard is the same in Rattle, and proved, except for the look ahead; this program is tested alone. */
#include "journey.h"

#include <inttypes.h>
#include <stdlib.h>
#include <string.h>

/* What is ordered at the interfaces. */
struct orders {
    bool cuts_traction;
    bool service_brake;
    bool emergency_brake;
};

static const struct orders BRAKE = {true, true, true};

struct onboard {
    struct sdm supervisor;
    bool is_judged; /* a reading was, and the last one had this time */
    uint32_t last_time_ds;
    bool is_authority_missing;   /* the last authority was refused */
    bool is_restriction_missing; /* a restriction was refused: it takes a restart to run on */
    struct orders orders;
};

/* What a row asks for. A row that isn't covered brakes, except after a reading that is relied on in release speed
 * monitoring; and so does what was refused, since it isn't supervised. */
static struct orders orders_of(const struct sdm_row *row, bool is_relied_on, bool is_unsupervised) {
    bool is_uncovered = !row->covered && !is_relied_on;
    if (row->eb || is_uncovered || is_unsupervised)
        return BRAKE;
    struct orders orders = {row->tco || row->sb, row->sb != 0, false};
    return orders;
}

/* The bounds of readings in release speed monitoring: W from the min to the max safe front end, and U by which the train
 * may get faster than the measured speed until its brake works. */
enum { WIDTH_CM = 1000, EXCESS_MM_S = 1000 };

/* The guard of release speed monitoring, where no row promises a stop: a reading that finds an untripped train is relied on
 * where it keeps the bounds and the release speed has a trip place for them. The brake works at most 30 s after its order,
 * the longest time of the train data: 1 cm/s² gains 300 mm/s until then. A builder has the train's own times. */
static bool is_relied_on(struct sdm *h, const struct sdm_row *row, const struct sdm_reading *reading) {
    uint32_t has_place = 0;
    int64_t gain_mm_s = reading->accel_cm_s2 > 0 ? 300 * (int64_t)reading->accel_cm_s2 : 0;
    return row->state == SDM_RELEASE && (int64_t)reading->max_mm - reading->min_mm <= 10 * WIDTH_CM &&
           reading->under_mm_s + gain_mm_s <= EXCESS_MM_S &&
           sdm_has_trip_place(h, WIDTH_CM, EXCESS_MM_S, &has_place) == SDM_DONE && has_place != 0;
}

/* The most that a reading may ask until what the next turn orders works, with the traction on: 1 s later, where the train
 * has gained 1 m/s². A builder has the train's own numbers, and what the odometer may add. */
enum { AHEAD_MS = 1000, DRIVEN_CM_S2 = 100, GAIN_MM_S = DRIVEN_CM_S2 * AHEAD_MS / 100 };

static struct sdm_reading most_asked(const struct sdm_reading *reading) {
    struct sdm_reading asked = *reading;
    int64_t fastest_mm_s = (int64_t)reading->speed_mm_s + reading->under_mm_s + GAIN_MM_S;
    asked.est_mm = asked.max_mm = reading->max_mm + (int32_t)(fastest_mm_s * AHEAD_MS / 1000);
    asked.speed_mm_s += GAIN_MM_S;
    asked.accel_cm_s2 = reading->accel_cm_s2 > DRIVEN_CM_S2 ? reading->accel_cm_s2 : DRIVEN_CM_S2;
    return asked;
}

/* Whether the traction is to be cut before a gap. A reading that asks for more than its ranges cuts it, too. */
static bool is_gap_ahead(struct sdm *h, const struct sdm_reading *reading) {
    struct sdm_reading asked = most_asked(reading);
    uint32_t is_covered = 0;
    return sdm_would_cover_up_to(h, &asked, &is_covered) != SDM_DONE || is_covered == 0;
}

/* Takes a reading. One that repeats the time of the last one tells nothing new: it is a missing one. One that is refused
 * isn't judged. To brake then is always enough. */
static void take_reading(struct onboard *onboard, const struct sdm_reading *reading) {
    struct sdm_row row;
    memset(&row, 0, sizeof row);
    bool is_repeated = onboard->is_judged && reading->time_ds == onboard->last_time_ds;
    if (is_repeated || sdm_cycle(&onboard->supervisor, reading, &row) != SDM_DONE) {
        onboard->orders = BRAKE;
        return;
    }
    onboard->orders = orders_of(&row, is_relied_on(&onboard->supervisor, &row, reading),
                                onboard->is_authority_missing || onboard->is_restriction_missing);
    if (row.state != SDM_RELEASE && is_gap_ahead(&onboard->supervisor, reading))
        onboard->orders.cuts_traction = true;
    onboard->is_judged = true;
    onboard->last_time_ds = reading->time_ds;
}

/* Notes whether an authority or a restriction is missing now; where it is, the brake is ordered at once. */
static void note(struct onboard *onboard, bool *is_missing, bool is_refused) {
    *is_missing = is_refused;
    if (is_refused)
        onboard->orders = BRAKE;
}

static void take(struct onboard *onboard, const struct event *event) {
    struct sdm_reading reading;
    uint32_t status;
    switch (event->kind) {
    case EVENT_READ:
        reading = event_reading(event);
        take_reading(onboard, &reading);
        return;
    case EVENT_RESTRICT:
        status = event_take(&onboard->supervisor, event, NULL);
        note(onboard, &onboard->is_restriction_missing, onboard->is_restriction_missing || status != SDM_DONE);
        return;
    case EVENT_REVOKE:
        status = event_take(&onboard->supervisor, event, NULL);
        if (status != SDM_DONE && status != SDM_UNKNOWN_ID) /* where the identity is unknown nothing is to be lifted */
            onboard->orders = BRAKE;
        return;
    case EVENT_END:
    case EVENT_END_CALCULATED:
    case EVENT_LIMIT:
        status = event_take(&onboard->supervisor, event, NULL);
        note(onboard, &onboard->is_authority_missing, status != SDM_DONE);
        return;
    }
    abort();
}

/* Opens a supervisor over data; the line tells of data that are refused. */
static uint32_t open_over(struct sdm *h, const struct journey *journey) {
    struct sdm_line line;
    memset(&line, 0, sizeof line);
    uint32_t status = sdm_open(h, journey->data, journey->data_bytes, &line);
    fwrite(line.bytes, 1, line.count, stderr);
    return status;
}

/* Changes to new data between two readings. The next supervisor was opened at leisure, while the old one ran; only what
 * is kept is taken over now. The new data bring an authority, so that none is missing any more. Where they are refused,
 * the old supervisor runs on over the old data, as where an authority is refused. */
static void change_data(struct onboard *onboard, struct sdm *next, uint32_t opened) {
    uint32_t status = opened == SDM_DONE ? sdm_take_over(next, &onboard->supervisor) : opened;
    note(onboard, &onboard->is_authority_missing, status != SDM_DONE);
    if (status == SDM_DONE) {
        struct sdm before = onboard->supervisor;
        onboard->supervisor = *next;
        *next = before;
    }
    sdm_close(next);
}

static void tell(unsigned number, struct orders orders) {
    printf("record %u:%s%s%s\n", number, orders.cuts_traction ? " traction cut-off" : "",
           orders.service_brake ? " service brake" : "", orders.emergency_brake ? " emergency brake" : "");
}

/* Takes the records up to the first whose form is refused. */
static void run(struct onboard *onboard, const struct journey *journey, unsigned *number) {
    const uint8_t *at = journey->records;
    struct event event;
    unsigned column;
    for (; at < journey->end; ++*number) {
        if (event_read(&at, journey->end, &event, &column) != FORM_DONE)
            return;
        take(onboard, &event);
        tell(*number, onboard->orders);
    }
}

/* Takes a further input: its data, and then its records. */
static void run_further(struct onboard *onboard, const char *name, unsigned *number) {
    struct sdm next = SDM_INIT;
    struct journey journey;
    FILE *from = fopen(name, "rb");
    if (from != NULL && journey_read(from, &journey) == JOURNEY_READ) {
        change_data(onboard, &next, open_over(&next, &journey));
        run(onboard, &journey, number);
        journey_free(&journey);
    }
    if (from != NULL)
        fclose(from);
}

int main(int count, char **words) {
    struct onboard onboard = {SDM_INIT, false, 0, false, false, BRAKE};
    struct journey journey;
    unsigned number = 1;
    if (sdm_layout() != SDM_LAYOUT || journey_read(stdin, &journey) != JOURNEY_READ)
        return 1;
    uint32_t status = open_over(&onboard.supervisor, &journey);
    if (status == SDM_DONE)
        run(&onboard, &journey, &number);
    for (int i = 1; status == SDM_DONE && i < count; i++)
        run_further(&onboard, words[i], &number);
    sdm_close(&onboard.supervisor);
    journey_free(&journey);
    return status != SDM_DONE;
}
