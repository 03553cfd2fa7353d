/* Changes of data: refused in each way, and taken. A part of the program `fault`. */
#include "fault.h"

#include <string.h>

/* A change of data that is refused: it answers what is due, and changes neither handle. */
static void refuse_change(struct sdm *next, struct sdm *before, uint32_t due, const char *what) {
    struct sdm next_was = *next, before_was = *before;
    heap_test_begin(0, 0);
    check_answer(sdm_take_over(next, before), due, what);
    check(is_same_handle(*next, next_was), "the next handle stays", what);
    check(is_same_handle(*before, before_was), "the handle before stays", what);
    check_no_memory_moved(what);
}

/* Data with a track of 1 cm, on which no restriction of two of them fits. */
static const char SHORT_TRACK[] =
    "version = 1\n[train]\nlength = 100\nmax_speed = 500\nrotating_mass = 0\ntraction_cutoff_time = 0\n"
    "traction_cutoff_interface = false\nemergency_time = 0\nservice_time = 0\nservice_brake = false\n"
    "[[train.band]]\nemergency = 100\nservice = 100\nnormal = 100\nkdry = 1000\nkwet = 1000\nkn_up = 0\n"
    "kn_down = 0\n[national]\navadh = 0\nadhesion_max = 70\nguidance = false\nservice_in_target = false\n"
    "early_release = false\ninhibit_under_reading = false\n[track]\nlength = 1\n[[track.speed]]\nstart = 0\n"
    "speed = 500\n[authority]\nkind = \"limit\"\nloa = 1\nspeed = 500\n";

void misuse_change(struct sdm *h, struct sdm *twin, const struct event *reading) {
    struct event lifted = {EVENT_REVOKE, {HELD_ID}};
    struct event restriction = {EVENT_RESTRICT, {HELD_ID, 0, 2, 500, 0}};
    struct sdm none = SDM_INIT, next = SDM_INIT;
    struct sdm_restriction one = {1, 0, 1, 500, 0};
    struct sdm_line line;
    check_answer(event_take(h, &restriction, NULL), SDM_DONE, "a restriction");
    check_answer(event_take(twin, &restriction, NULL), SDM_DONE, "a restriction");
    refuse_change(&none, h, SDM_CLOSED, "a change to no supervisor");
    refuse_change(&none, &none, SDM_CLOSED, "a change from no supervisor to itself");
    refuse_change(h, h, SDM_NOT_FRESH, "a change of a supervisor to itself");
    refuse_change(h, twin, SDM_NOT_FRESH, "a change to one that had a reading");
    refuse_change(h, &none, SDM_CLOSED, "a change from no supervisor");
    check_answer(sdm_open(&next, (const uint8_t *)SHORT_TRACK, strlen(SHORT_TRACK), &line), SDM_DONE, "a short track");
    refuse_change(&next, h, SDM_BAD_PLACES, "a change to a track that is too short for a restriction");
    check_answer(sdm_restrict(&next, &one), SDM_DONE, "a restriction");
    refuse_change(&next, h, SDM_NOT_FRESH, "a change to one that has a restriction");
    sdm_close(&next);
    refuse_change(&next, h, SDM_CLOSED, "a change to one that was closed");
    compare(h, twin, reading, "a change that is refused");
    check_answer(event_take(h, &lifted, NULL), SDM_DONE, "a revocation");
    check_answer(event_take(twin, &lifted, NULL), SDM_DONE, "a revocation");
}

void change_data(struct sdm *h, struct sdm *twin, const struct journey *journey, const struct event *reading,
                 const char *what) {
    struct sdm next = SDM_INIT;
    struct sdm_line line;
    check_answer(sdm_open(&next, journey->data, journey->data_bytes, &line), SDM_DONE, what);
    heap_test_begin(0, 0);
    check_answer(sdm_take_over(&next, h), SDM_DONE, what);
    check_no_memory_moved(what);
    compare(h, twin, reading, what);
    sdm_close(h);
    *h = next;
    compare(h, twin, reading, what);
}
