#include "rider.h"

#include <string.h>

enum { LONGEST_FREEZE = 20, NOTCHES_PER_KMH = 15000 }; /* the freeze in periods */
static const int64_t HALF_NOTCH_TICK = 500000;

/* ---- numbers */

/* By splitmix64. */
int64_t up_to(struct rider *r, int64_t most) {
    uint64_t n = r->random += 0x9e3779b97f4a7c15u;
    n = (n ^ n >> 30) * 0xbf58476d1ce4e5b9u;
    n = (n ^ n >> 27) * 0x94d049bb133111ebu;
    return (int64_t)((n ^ n >> 31) % ((uint64_t)most + 1));
}

int64_t divided_down(int64_t a, int64_t b) { return a / b - (a % b < 0); }

static int64_t divided_up(int64_t a, int64_t b) { return -divided_down(-a, b); }

int64_t least_of(int64_t a, int64_t b) { return a < b ? a : b; }

int64_t most_of(int64_t a, int64_t b) { return a > b ? a : b; }

static int64_t between(int64_t a, int64_t least, int64_t most) { return most_of(least, least_of(a, most)); }

/* ---- the train */

/* The greatest loss in the stretches between two places in grains and in the bands between two speeds in notches. */
static int64_t greatest_loss(const struct brake *brake, int64_t from, int64_t to, int64_t least, int64_t most) {
    int64_t greatest = 0;
    for (int64_t i = 0; i < brake->stretches && (i == 0 || brake->borders[i - 1] <= to); i++) {
        if (i + 1 < brake->stretches && brake->borders[i] < from)
            continue;
        for (int64_t band = 0; band < brake->bands && (band == 0 || brake->uppers[band - 1] <= most); band++)
            if (band + 1 == brake->bands || brake->uppers[band] >= least)
                greatest = most_of(greatest, brake->losses[i][band]);
    }
    return greatest;
}

/* A tick in which the brake gives A_safe at least, in every cell and band that the train passes. */
static void brake(struct rider *r) {
    const struct brake *given = &(r->promise.stands ? r->promise.under : r->under)->brake;
    int64_t s = r->given->ticks_per_ds, loss = 0, more = 1;
    int64_t from = divided_down(r->place, s * s);
    int64_t to = divided_up(r->place + 2 * HALF_NOTCH_TICK * r->speed, s * s);
    while (more > loss) {
        loss = more;
        more = greatest_loss(given, from, to, most_of(r->speed - loss, 0) / s, divided_up(r->speed, s));
    }
    loss += loss * (up_to(r, r->given->stronger_per_mille) - r->given->breach.weaker_per_mille) / 1000;
    if (r->speed >= loss) {
        r->place += HALF_NOTCH_TICK * (2 * r->speed - loss);
        r->speed -= loss;
    } else {
        r->place += HALF_NOTCH_TICK * r->speed * r->speed / loss;
        r->speed = 0;
    }
}

/* A tick as it is driven: what the last promise took for granted bounds what the train gains. */
static void drive(struct rider *r) {
    const struct scenario *given = r->given;
    int64_t s = given->ticks_per_ds, gain = r->gain;
    if (r->promise.stands) {
        bool is_cut_off = r->order >= s * (given->latency_ds + given->cut_off_ds) && !given->breach.is_uncut;
        int64_t accel = r->promise.accel_cm_s2;
        gain = least_of(gain, NOTCHES_PER_MM_S * (is_cut_off ? least_of(accel, A_EST2_MOST) : accel));
        gain += NOTCHES_PER_MM_S * given->breach.gains_cm_s2;
    }
    int64_t to = between(r->speed + gain, 0, s * NOTCHES_PER_MM_S * MOST_SPEED_MM_S);
    r->place += HALF_NOTCH_TICK * (r->speed + to);
    r->speed = to;
}

static void move(struct rider *r) {
    const struct scenario *given = r->given;
    bool was_moving = r->speed > 0;
    if (r->order >= given->ticks_per_ds * (given->latency_ds + given->build_up_ds))
        brake(r);
    else
        drive(r);
    r->outcome.stops += was_moving && r->speed == 0;
    r->tick++;
    r->silence++;
    if (r->order >= 0)
        r->order++;
}

/* ---- the driver and the odometer */

static int64_t widest(const struct scenario *given) { return given->ahead_mm + given->behind_mm; }

static int64_t careful(const struct rider *r, int64_t power, int64_t service) {
    return r->row.status >= SDM_OVERSPEED ? service : r->row.status == SDM_INDICATION ? 0 : power;
}

/* The least estimated speed that a reading has now. */
static int64_t estimated_mm_s(const struct rider *r) {
    const struct scenario *given = r->given;
    int64_t under_mm_s = r->under->is_under_reading_inhibited ? 0 : given->under_mm_s;
    return divided_up(r->speed, given->ticks_per_ds * NOTCHES_PER_MM_S) - under_mm_s - given->breach.slow_mm_s;
}

/* What brings the estimated speed to the release speed by the next reading, if there is one. */
static int64_t crept(const struct rider *r, int64_t power, int64_t service) {
    int64_t release_kmh = r->authority->event.kind == EVENT_END ? r->authority->event.numbers[2] : 0;
    int64_t lacking_mm_s = NOTCHES_PER_KMH * release_kmh / NOTCHES_PER_MM_S - estimated_mm_s(r);
    return between(divided_down(NOTCHES_PER_MM_S * lacking_mm_s, r->given->period_ds), service, power);
}

/* Whether the next reading finds the train tripped, however far its safe front ends lie apart. */
static bool is_tripped_next(const struct rider *r) {
    int64_t s = r->given->ticks_per_ds, mm = s * s * GRAINS_PER_MM;
    int64_t next = r->place + 2 * HALF_NOTCH_TICK * r->speed * s * r->given->period_ds;
    return divided_up(next, mm) - widest(r->given) > 10 * (int64_t)r->authority->event.numbers[0];
}

/* What the driver asks for until the next reading, in notches a ds; the driver sees the last row. */
static int64_t driven(struct rider *r) {
    const struct scenario *given = r->given;
    int64_t power = NOTCHES_PER_MM_S * given->power_cm_s2, service = -NOTCHES_PER_MM_S * given->service_cm_s2;
    switch (given->driver) {
    case DRIVER_AT_RANDOM:
        switch (up_to(r, 5)) {
        case 0:
            return power;
        case 1:
            return up_to(r, power);
        case 2:
            return 0;
        case 3:
            return service;
        default:
            return r->gain;
        }
    case DRIVER_LATE:
        return r->row.status >= SDM_WARNING ? service : power;
    case DRIVER_CREEPING:
        return r->row.state == SDM_RELEASE ? crept(r, power, service) : careful(r, power, service);
    case DRIVER_SURGING:
        return r->row.state == SDM_RELEASE && is_tripped_next(r) ? power : crept(r, power, service);
    case DRIVER_CAREFUL:
        return careful(r, power, service);
    default:
        return power;
    }
}

/* The safe front ends in mm: the true one lies between them, unless that premise is broken. */
static void read_front_ends(struct rider *r, int64_t *min_mm, int64_t *max_mm) {
    const struct scenario *given = r->given;
    int64_t mm = given->ticks_per_ds * given->ticks_per_ds * GRAINS_PER_MM;
    int64_t true_down = divided_down(r->place, mm), true_up = divided_up(r->place, mm);
    if (given->is_widest) {
        int64_t eoa = 10 * (int64_t)r->authority->event.numbers[0];
        *max_mm = true_up - given->breach.short_mm;
        *min_mm = *max_mm - widest(given);
        if (between(eoa, *min_mm, *max_mm) == eoa)
            *min_mm = eoa;
    } else {
        int64_t min = true_down - up_to(r, given->behind_mm);
        *max_mm = true_up + up_to(r, given->ahead_mm) - given->breach.short_mm;
        *min_mm = least_of(min, *max_mm);
    }
}

/* What the odometer tells: the truth lies within its bounds, and the train gains at most what it says until the next
 * reading. */
static struct sdm_reading read_odometer(struct rider *r) {
    const struct scenario *given = r->given;
    int64_t min, max;
    read_front_ends(r, &min, &max);
    int64_t speed = 0, fast = up_to(r, given->fast_mm_s);
    if (r->speed > 0)
        speed = between(estimated_mm_s(r) + fast, 1, MOST_SPEED_MM_S);
    int64_t accel = divided_up(r->gain, NOTCHES_PER_MM_S) + up_to(r, given->gain_cm_s2);
    struct sdm_reading reading = {(uint32_t)(r->tick / given->ticks_per_ds),
                                  (int32_t)(min + up_to(r, max - min)),
                                  (int32_t)min,
                                  (int32_t)max,
                                  (uint32_t)speed,
                                  (int32_t)between(accel, -MOST_ACCEL, MOST_ACCEL),
                                  (uint32_t)given->under_mm_s};
    return reading;
}

/* ---- readings in time */

/* When the next reading comes: within a period, or late. */
static int64_t next_reading(struct rider *r) {
    const struct scenario *given = r->given;
    int64_t period = given->ticks_per_ds * given->period_ds;
    if (up_to(r, 999) < given->missing_per_mille)
        return r->tick + 1 + up_to(r, 4 * period);
    return r->tick + (given->is_regular ? period : 1 + up_to(r, period - 1));
}

/* Whether the odometer sends its last reading again; now and then it begins to, for some periods. */
static bool is_frozen(struct rider *r) {
    const struct scenario *given = r->given;
    bool has_read = r->outcome.readings > 0;
    if (has_read && r->tick >= r->frozen_until && up_to(r, 999) < given->repeats_per_mille)
        r->frozen_until = r->tick + up_to(r, LONGEST_FREEZE) * given->ticks_per_ds * given->period_ds;
    return has_read && r->tick < r->frozen_until;
}

/* A reading comes. One with the time of the last one is missing: its time tells nothing new. */
static void read_train(struct rider *r) {
    const struct scenario *given = r->given;
    bool has_read = r->outcome.readings > 0 || r->told.waits;
    r->gain = driven(r);
    struct sdm_reading reading = is_frozen(r) ? r->last : read_odometer(r);
    r->read_at = next_reading(r);
    if (has_read && reading.time_ds == r->last.time_ds && !given->breach.judges_repeated)
        return;
    int64_t late = given->is_judged_late ? up_to(r, given->ticks_per_ds * given->latency_ds) : 0;
    struct told told = {true, reading, r->tick, least_of(r->tick + late, r->read_at)};
    r->told = told;
    r->last = reading;
    r->silence = 0;
}

/* Judges the reading that waits, and drives as its row says. False where it is refused. */
static bool judge_reading(struct rider *r) {
    if (!judge(r))
        return false;
    if (r->given->obeys_service && (r->row.sb || r->row.tco))
        r->gain = least_of(r->gain, r->row.sb ? -NOTCHES_PER_MM_S * r->given->service_cm_s2 : 0);
    return true;
}

/* ---- the ride */

/* What comes before a tick, and the tick. */
static enum verdict pass_tick(struct rider *r) {
    const struct scenario *given = r->given;
    const struct world *world = r->world;
    while (r->next < world->happenings_count && r->tick >= given->ticks_per_ds * world->happenings[r->next].time_ds)
        take_happening(r, &world->happenings[r->next++]);
    if (r->told.waits && r->tick >= r->told.judged_at && !judge_reading(r))
        return NOT_JUDGED;
    if (r->tick >= r->read_at)
        read_train(r);
    if (r->told.waits && r->tick >= r->told.judged_at && !judge_reading(r))
        return NOT_JUDGED;
    if (r->silence >= given->ticks_per_ds * given->period_ds) {
        r->silence = 0;
        r->outcome.overdue++;
        order(r, 0);
    }
    enum verdict after_reading = verdict(r);
    if (after_reading != KEPT)
        return after_reading;
    move(r);
    return verdict(r);
}

struct outcome ride(const struct world *world, const struct scenario *scenario) {
    struct rider r;
    struct sdm_line line;
    int64_t s = scenario->ticks_per_ds;
    memset(&r, 0, sizeof r);
    r.world = world;
    r.given = scenario;
    r.under = &world->grounds[0];
    r.random = (uint64_t)scenario->seed;
    r.place = s * s * GRAINS_PER_MM * scenario->place_mm;
    r.speed = s * NOTCHES_PER_MM_S * scenario->speed_mm_s;
    r.order = -1;
    r.ignored = scenario->breach.ignored;
    r.outcome.verdict = NOT_JUDGED;
    if (sdm_open(&r.supervisor, r.under->data, r.under->data_bytes, &line) != SDM_DONE)
        return r.outcome;
    do
        r.outcome.verdict = pass_tick(&r);
    while (r.outcome.verdict == KEPT && r.tick < s * scenario->duration_ds);
    sdm_close(&r.supervisor);
    return r.outcome;
}
