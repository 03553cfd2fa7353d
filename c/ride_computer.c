#include "rider.h"

/* ---- orders */

void order(struct rider *r, int64_t since) {
    if (r->order >= 0)
        return;
    r->outcome.orders++;
    r->order = since;
}

/* ---- what comes from the trackside */

/* Changes to other data. Refused, the supervisor goes on over those that it has. */
static bool change(struct rider *r, const struct ground *ground) {
    struct sdm next = SDM_INIT;
    struct sdm_line line;
    if (sdm_open(&next, ground->data, ground->data_bytes, &line) != SDM_DONE)
        return false;
    if (sdm_take_over(&next, &r->supervisor) != SDM_DONE) {
        sdm_close(&next);
        return false;
    }
    sdm_close(&r->supervisor);
    r->supervisor = next; /* moved */
    r->under = ground;
    r->outcome.changes++;
    return true;
}

void take_happening(struct rider *r, const struct happening *happening) {
    const struct event *event = &happening->event;
    bool is_end = event->kind == EVENT_END || event->kind == EVENT_END_CALCULATED;
    bool is_authority = is_end || event->kind == EVENT_LIMIT;
    bool is_taken = happening->ground > 0 ? change(r, &r->world->grounds[happening->ground])
                                          : event_take(&r->supervisor, event, NULL) == SDM_DONE;
    if (is_authority)
        r->is_authority_missing = !is_taken;
    if (!is_taken) {
        r->outcome.refused++;
        order(r, 0);
        return;
    }
    r->profile = happening;
    if (is_authority)
        r->authority = happening;
    if (is_end)
        r->furthest_cm = most_of(r->furthest_cm, event->numbers[1]);
}

/* ---- readings */

/* Whether a reading keeps the bounds W and U. */
static bool is_within_bounds(const struct rider *r, const struct sdm_reading *reading) {
    const struct ground *under = r->under;
    int64_t a_est1 = most_of(reading->accel_cm_s2, 0);
    int64_t v_delta0 = under->is_under_reading_inhibited ? 0 : reading->under_mm_s;
    int64_t gained = a_est1 * under->traction_ds + least_of(a_est1, A_EST2_MOST) * under->berem_ds;
    return (int64_t)reading->max_mm - reading->min_mm <= r->given->width_mm &&
           NOTCHES_PER_MM_S * (v_delta0 + gained) <= r->given->excess;
}

/* Whether a reading gives a promise. */
static bool gives_promise(const struct rider *r, const struct sdm_reading *reading) {
    if (r->row.covered)
        return true;
    bool is_untripped = r->row.state == SDM_RELEASE && !r->row.eb;
    return r->given->judging != BY_ROWS && is_untripped && r->authority->has_trip && is_within_bounds(r, reading);
}

/* What a reading promises of what is in force: the SvL, and where its row is covered each speed target. */
static struct promise promise_of(const struct rider *r, const struct sdm_reading *reading) {
    const struct event *authority = &r->authority->event;
    bool has_svl = authority->kind != EVENT_LIMIT;
    struct promise promise = {true,
                              r->under,
                              most_of(reading->accel_cm_s2, 0),
                              reading->max_mm,
                              has_svl,
                              has_svl ? authority->numbers[1] : 0,
                              authority->numbers[0],
                              r->authority,
                              r->row.covered ? r->profile : NULL};
    return promise;
}

bool judge(struct rider *r) {
    const struct sdm_reading *reading = &r->told.reading;
    const struct sdm_row *row = &r->row;
    r->told.waits = false;
    if (sdm_cycle(&r->supervisor, reading, &r->row) != SDM_DONE)
        return false;
    bool is_promised = gives_promise(r, reading);
    bool is_ordered = row->eb || (!row->covered && row->state != SDM_RELEASE);
    is_ordered = is_ordered || (r->given->judging == GUARDED && !is_promised);
    bool is_handed_on = is_ordered || r->is_authority_missing;
    if (is_handed_on && r->ignored > 0) {
        r->ignored--;
        is_handed_on = false;
    }
    if (is_handed_on)
        order(r, r->tick - r->told.moment);
    else
        r->order = -1;
    if (is_promised)
        r->promise = promise_of(r, reading);
    else if (!is_ordered)
        r->promise.stands = false;
    r->has_promised = r->has_promised || is_promised;
    r->outcome.readings++;
    r->outcome.covered += row->covered;
    r->outcome.released += is_promised && !row->covered;
    return true;
}

/* ---- what was promised */

static bool keeps_to(const struct rider *r, int64_t cm, int64_t notches) {
    int64_t s = r->given->ticks_per_ds;
    return r->place < s * s * GRAINS_PER_CM * cm || r->speed <= s * notches;
}

/* Whether the train keeps to each speed target of the promise. */
static bool keeps_to_targets(const struct rider *r) {
    const struct promise *promise = &r->promise;
    if (promise->profile == NULL)
        return true;
    if (promise->authority->end_notches >= 0 && !keeps_to(r, promise->end_cm, promise->authority->end_notches))
        return false;
    for (int64_t i = 0; i < promise->profile->falls_count; i++) {
        const struct slow_place *fall = &promise->profile->falls[i];
        bool is_target = 10 * fall->cm > promise->max_mm && fall->cm <= promise->end_cm;
        if (is_target && !keeps_to(r, fall->cm, fall->notches))
            return false;
    }
    return true;
}

enum verdict verdict(struct rider *r) {
    const struct promise *promise = &r->promise;
    int64_t s = r->given->ticks_per_ds;
    if (r->given->judging != BY_ROWS && r->has_promised && r->place > s * s * GRAINS_PER_CM * r->furthest_cm)
        return PASSED_SVL;
    if (!promise->stands)
        return KEPT;
    if (promise->has_svl) {
        int64_t left = divided_down(s * s * GRAINS_PER_CM * promise->svl_cm - r->place, s * s * GRAINS_PER_MM);
        r->outcome.nearest_mm = r->outcome.has_nearest ? least_of(r->outcome.nearest_mm, left) : left;
        r->outcome.has_nearest = true;
        if (r->place > s * s * GRAINS_PER_CM * promise->svl_cm)
            return PASSED_SVL;
    }
    return keeps_to_targets(r) ? KEPT : PASSED_TARGET;
}
