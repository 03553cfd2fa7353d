/* The two calls that ask about readings that haven't come: refused in each way, held against the rows of a journey, and
 * answers that were worked by hand. A part of the program `fault`. */
#include "fault.h"

#include <string.h>

void refuse_ahead(struct sdm *h, const struct sdm_reading *reading, uint32_t due, const char *what) {
    uint32_t is_covered = 2;
    check_answer(sdm_would_cover(h, reading, &is_covered), due, what);
    check(is_covered == 2, "whether it would be covered isn't written", what);
    check_answer(sdm_would_cover_up_to(h, reading, &is_covered), due, what);
    check(is_covered == 2, "whether each up to it would be covered isn't written", what);
}

/* Both are flags, and change no handle. */
void ask_ahead(struct sdm *h, const struct sdm_reading *reading, struct ahead *ahead) {
    static const char what[] = "a reading that hasn't come";
    struct sdm before = *h;
    check_answer(sdm_would_cover(h, reading, &ahead->is_covered), SDM_DONE, what);
    check_answer(sdm_would_cover_up_to(h, reading, &ahead->is_each_covered), SDM_DONE, what);
    check(ahead->is_covered <= 1 && ahead->is_each_covered <= 1, "a flag is written", what);
    check(is_same_handle(*h, before), "the handle stays", what);
}

/* A reading asks no more than itself. */
void check_ahead(const struct ahead *ahead, const struct sdm_row *row) {
    static const char what[] = "a reading that was asked for";
    check(ahead->is_covered == row->covered, "it is covered where it would be", what);
    check(ahead->is_each_covered == 0 || row->covered == 1 || row->state == SDM_RELEASE,
          "it is covered or released where each up to it would be", what);
}

/* Data with 1 m/s² of each brake at once, on a track of 2 km. */
static const char DATA[] =
    "version = 1\n[train]\nlength = 100\nmax_speed = 500\nrotating_mass = 0\ntraction_cutoff_time = 0\n"
    "traction_cutoff_interface = false\nemergency_time = 0\nservice_time = 0\nservice_brake = true\n"
    "[[train.band]]\nemergency = 100\nservice = 100\nnormal = 100\nkdry = 1000\nkwet = 1000\nkn_up = 0\n"
    "kn_down = 0\n[national]\navadh = 0\nadhesion_max = 70\nguidance = false\nservice_in_target = true\n"
    "early_release = false\ninhibit_under_reading = false\n[track]\nlength = 200000\n[[track.speed]]\nstart = 0\n"
    "speed = 500\n[authority]\nkind = \"end\"\neoa = 200000\nsvl = 200000\n";

/* At 500 m the speed falls to 80 km/h, with 7.5 km/h to its EBI: from 25 m/s a train stops being covered 17.12 m before
 * it. Past the fall it is no target of a reading, but of those behind it. */
void ask_at_a_fall(void) {
    static const struct {
        int32_t min_mm, max_mm;
        struct ahead due;
        const char *what;
    } asked[] = {
        {482880, 482880, {1, 1}, "a reading at the place of the EBI"},
        {482881, 482881, {0, 0}, "a reading past the place of the EBI"},
        {470000, 482880, {1, 1}, "a reading of a wide odometer at the place of the EBI"},
        {470000, 482881, {0, 0}, "a reading of a wide odometer past the place of the EBI"},
        {510000, 510000, {1, 1}, "a reading past the fall"},
        {500000, 510000, {1, 1}, "a reading that begins at the fall"},
        {499999, 510000, {1, 0}, "a reading that begins before the fall"},
    };
    static const struct sdm_restriction restriction = {1, 50000, 60000, 80, 0};
    struct sdm h = SDM_INIT;
    struct sdm_line line;
    check_answer(sdm_open(&h, (const uint8_t *)DATA, strlen(DATA), &line), SDM_DONE, "data with plain brakes");
    heap_test_begin(0, 0);
    check_answer(sdm_restrict(&h, &restriction), SDM_DONE, "a restriction");
    for (size_t i = 0; i < sizeof asked / sizeof asked[0]; i++) {
        struct sdm_reading reading = {0, asked[i].max_mm, asked[i].min_mm, asked[i].max_mm, 25000, 0, 0};
        struct ahead ahead = {2, 2};
        ask_ahead(&h, &reading, &ahead);
        check(ahead.is_covered == asked[i].due.is_covered, "it would be covered where it is due", asked[i].what);
        check(ahead.is_each_covered == asked[i].due.is_each_covered, "each up to it would be where it is due",
              asked[i].what);
    }
    check_no_memory_moved("readings that haven't come");
    sdm_close(&h);
}
