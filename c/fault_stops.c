/* The two calls that ask where a train stops: refused in each way, and answers that were worked by hand. A part of the
 * program `fault`. */
#include "fault.h"

#include <string.h>

/* A call that is refused writes nothing, and the handle stays. */
static void refuse_clearance(struct sdm *h, const struct sdm_reading *reading, struct sdm_allowance allowance,
                             uint32_t due, const char *what) {
    struct sdm before = *h;
    struct sdm_place first = {-7, 2};
    check_answer(sdm_clear_of(h, reading, &allowance, &first), due, what);
    check(first.mm == -7 && first.is_some == 2, "the place isn't written", what);
    check(is_same_handle(*h, before), "the handle stays", what);
}

void refuse_stops_closed(struct sdm *h) {
    static const char what[] = "where a train stops, without supervisor";
    struct sdm_reading reading = {0, 0, 0, 0, 138889, 0, 0};
    uint32_t has_place = 2;
    refuse_clearance(h, &reading, (struct sdm_allowance){0, 10001, 0}, SDM_CLOSED, what);
    check_answer(sdm_has_trip_place(h, 0, 0, &has_place), SDM_CLOSED, what);
    check(has_place == 2, "the flag isn't written", what);
}

void misuse_stops(struct sdm *h) {
    struct sdm_reading reading = {0, 0, 0, 0, 138888, 0, 0}, early = {0, 1, 2, 1, 0, 0, 0};
    refuse_clearance(h, &early, (struct sdm_allowance){0, 0, 0}, SDM_OUT_OF_RANGE, "a clearance out of order");
    refuse_clearance(h, &reading, (struct sdm_allowance){10000001, 0, 0}, SDM_OUT_OF_RANGE, "a front end too far on");
    refuse_clearance(h, &reading, (struct sdm_allowance){0, 10001, 0}, SDM_OUT_OF_RANGE, "a speed too great");
    refuse_clearance(h, &reading, (struct sdm_allowance){0, 0, 301}, SDM_OUT_OF_RANGE, "a gain too great");
    refuse_clearance(h, &reading, (struct sdm_allowance){0, 0, 65536}, SDM_OUT_OF_RANGE, "a gain that is 0 in 16 bits");
}

/* Data with 1 m/s² of each brake, of which the emergency brake works at once and the service brake 1 s late, and a track
 * of 2 km. */
static const char DATA[] =
    "version = 1\n[train]\nlength = 100\nmax_speed = 500\nrotating_mass = 0\ntraction_cutoff_time = 0\n"
    "traction_cutoff_interface = false\nemergency_time = 0\nservice_time = 10\nservice_brake = true\n"
    "[[train.band]]\nemergency = 100\nservice = 100\nnormal = 100\nkdry = 1000\nkwet = 1000\nkn_up = 0\n"
    "kn_down = 0\n[national]\navadh = 0\nadhesion_max = 70\nguidance = false\nservice_in_target = true\n"
    "early_release = false\ninhibit_under_reading = false\n[track]\nlength = 200000\n[[track.speed]]\nstart = 0\n"
    "speed = 500\n[authority]\nkind = \"limit\"\nloa = 1\nspeed = 500\n";

/* Asks for the first place by which a train of 20 m/s at 800 m stops; -1 stands for none. */
static void clear_at(struct sdm *h, struct sdm_allowance allowance, int64_t due_mm, const char *what) {
    static const struct sdm_reading reading = {0, 800000, 799000, 801000, 20000, 300, 10000};
    struct sdm_place first = {-7, 2};
    check_answer(sdm_clear_of(h, &reading, &allowance, &first), SDM_DONE, what);
    check(first.is_some == (due_mm < 0 ? 0 : 1), "there is one where it is due", what);
    check(first.mm == (due_mm < 0 ? 0 : due_mm), "it is the place that was worked by hand", what);
}

/* 20 m and 200 m; 1 m more; 21 m and 220.5 m; gaining 1 m/s², 20.5 m and 220.5 m; and at 60 m/s past the track's end. */
static void clear_places(struct sdm *h) {
    static const struct sdm_reading fast = {0, 800000, 799000, 801000, 60000, 0, 0};
    struct sdm_allowance none = {0, 0, 0};
    struct sdm_place first = {-7, 2};
    clear_at(h, none, 1020000, "a place without allowance");
    clear_at(h, (struct sdm_allowance){1000, 0, 0}, 1021000, "a place with one of the front end");
    clear_at(h, (struct sdm_allowance){0, 1000, 0}, 1041500, "a place with one of the speed");
    clear_at(h, (struct sdm_allowance){0, 0, 100}, 1041000, "a place with one of the acceleration");
    check_answer(sdm_clear_of(h, &fast, &none, &first), SDM_DONE, "a place past the track");
    check(first.mm == 0 && first.is_some == 0, "there is none", "a place past the track");
}

/* Asks whether a release speed has a trip place. */
static void trip_place_at(struct sdm *h, uint32_t release_kmh, uint32_t width_cm, uint32_t excess_mm_s, uint32_t due) {
    static const char what[] = "a trip place";
    uint32_t has_place = 2;
    check_answer(sdm_end(h, 100000, 100200, release_kmh), SDM_DONE, what);
    check_answer(sdm_has_trip_place(h, width_cm, excess_mm_s, &has_place), SDM_DONE, what);
    check(has_place == due, "there is one where it is due", what);
}

/* 2 m before the SvL a train stops from 2 m/s, which are 7.2 km/h; 1.90 m before it from 7.02 and 1.89 m before it from
 * 6.9994 km/h. A limit has none. */
static void trip_places(struct sdm *h) {
    uint32_t has_place = 2;
    trip_place_at(h, 7, 0, 0, 1);
    trip_place_at(h, 8, 0, 0, 0);
    trip_place_at(h, 7, 10, 0, 1);
    trip_place_at(h, 7, 11, 0, 0);
    trip_place_at(h, 6, 0, 277, 1); /* 6.9972 km/h */
    trip_place_at(h, 6, 0, 278, 0); /* 7.0008 km/h */
    trip_place_at(h, 0, 200, 0, 1);
    trip_place_at(h, 0, 201, 0, 0);
    trip_place_at(h, 0, UINT32_MAX, 0, 0);
    trip_place_at(h, 0, 0, UINT32_MAX, 0);
    check_answer(sdm_limit(h, 100000, 100), SDM_DONE, "a limit");
    check_answer(sdm_has_trip_place(h, 0, 0, &has_place), SDM_DONE, "a limit");
    check(has_place == 0, "it has no trip place", "a limit");
}

void ask_stops(void) {
    struct sdm h = SDM_INIT;
    struct sdm_line line;
    check_answer(sdm_open(&h, (const uint8_t *)DATA, strlen(DATA), &line), SDM_DONE, "data with plain brakes");
    heap_test_begin(0, 0);
    clear_places(&h);
    trip_places(&h);
    check_no_memory_moved("where a train stops");
    sdm_close(&h);
}
