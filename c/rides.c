/* Rides made at random (ride.h), as many as standard input has: it reads worlds and, after each, the rides over it, as
 * python/sdm_evidence/makers/rides.py writes them, and writes a line for each ride:
 *
 *     VERDICT READINGS COVERED RELEASED ORDERS OVERDUE REFUSED CHANGES STOPS NEAREST
 *
 * NEAREST is `-` where no SvL was ever promised. The exit status is 1 where the input has another form. */
#include "ride.h"

#include <inttypes.h>
#include <stdlib.h>
#include <string.h>

static const char *const VERDICTS[] = {"kept", "svl", "target", "unjudged"};

static bool read_number(int64_t *number) { return scanf("%" SCNd64, number) == 1; }

static bool read_count(int64_t *count, int64_t least, int64_t most) {
    return read_number(count) && *count >= least && *count <= most;
}

static bool read_data(struct ground *ground) {
    int64_t bytes;
    if (!read_count(&bytes, 0, 16777216) || getchar() != '\n')
        return false;
    free(ground->data);
    ground->data_bytes = (size_t)bytes;
    ground->data = (uint8_t *)malloc(ground->data_bytes + 1);
    return ground->data != NULL && fread(ground->data, 1, ground->data_bytes, stdin) == ground->data_bytes;
}

static bool read_brake(struct brake *brake) {
    if (!read_count(&brake->bands, 1, MOST_BANDS) || !read_count(&brake->stretches, 1, MOST_STRETCHES))
        return false;
    for (int64_t i = 0; i + 1 < brake->bands; i++)
        if (!read_number(&brake->uppers[i]))
            return false;
    for (int64_t i = 0; i + 1 < brake->stretches; i++)
        if (!read_number(&brake->borders[i]))
            return false;
    for (int64_t i = 0; i < brake->stretches * brake->bands; i++)
        if (!read_number(&brake->losses[i / brake->bands][i % brake->bands]))
            return false;
    return true;
}

/* A record as an input has it, and what it leads to. */
static bool read_happening(struct happening *happening) {
    char record[128];
    unsigned column;
    if (!read_number(&happening->time_ds) || !read_count(&happening->ground, 0, MOST_PARTS - 1) ||
        scanf("%127s", record) != 1)
        return false;
    const uint8_t *at = (const uint8_t *)record;
    if (event_read(&at, at + strlen(record), &happening->event, &column) != FORM_DONE)
        return false;
    if (!read_number(&happening->end_notches) || !read_number(&happening->has_trip) ||
        !read_count(&happening->falls_count, 0, MOST_FALLS))
        return false;
    for (int64_t i = 0; i < happening->falls_count; i++)
        if (!read_number(&happening->falls[i].cm) || !read_number(&happening->falls[i].notches))
            return false;
    return true;
}

static bool read_ground(struct ground *ground) {
    return read_data(ground) && read_number(&ground->is_under_reading_inhibited) && read_number(&ground->traction_ds) &&
           read_number(&ground->berem_ds) && read_brake(&ground->brake);
}

static bool read_world(struct world *world) {
    if (!read_count(&world->grounds_count, 1, MOST_PARTS))
        return false;
    for (int64_t i = 0; i < world->grounds_count; i++)
        if (!read_ground(&world->grounds[i]))
            return false;
    if (!read_count(&world->happenings_count, 1, MOST_HAPPENINGS))
        return false;
    for (int64_t i = 0; i < world->happenings_count; i++)
        if (!read_happening(&world->happenings[i]) || world->happenings[i].ground >= world->grounds_count)
            return false;
    return true;
}

/* The numbers of a scenario stand in the order of its fields. */
static bool read_scenario(struct scenario *scenario) {
    int64_t numbers[sizeof *scenario / sizeof(int64_t)];
    for (size_t i = 0; i < sizeof numbers / sizeof numbers[0]; i++)
        if (!read_number(&numbers[i]))
            return false;
    memcpy(scenario, numbers, sizeof numbers);
    return scenario->ticks_per_ds > 0 && scenario->period_ds > 0;
}

static void put_outcome(const struct outcome *outcome) {
    const int64_t counts[] = {outcome->readings, outcome->covered, outcome->released, outcome->orders,
                              outcome->overdue,  outcome->refused, outcome->changes,  outcome->stops};
    printf("%s", VERDICTS[outcome->verdict]);
    for (size_t i = 0; i < sizeof counts / sizeof counts[0]; i++)
        printf(" %" PRId64, counts[i]);
    if (outcome->has_nearest)
        printf(" %" PRId64 "\n", outcome->nearest_mm);
    else
        printf(" -\n");
}

/* Reads a word and what follows it, and rides where that is a ride; false where it has another form. */
static bool take_word(struct world *world, const char *word) {
    struct scenario scenario;
    if (strcmp(word, "world") == 0)
        return read_world(world);
    if (strcmp(word, "ride") != 0 || world->grounds_count == 0 || !read_scenario(&scenario))
        return false;
    struct outcome outcome = ride(world, &scenario);
    put_outcome(&outcome);
    return true;
}

int main(void) {
    struct world *world = (struct world *)calloc(1, sizeof *world);
    char word[8];
    bool is_formed = world != NULL && sdm_layout() == SDM_LAYOUT;
    while (is_formed && scanf("%7s", word) == 1)
        is_formed = take_word(world, word);
    for (size_t i = 0; world != NULL && i < MOST_PARTS; i++)
        free(world->grounds[i].data);
    free(world);
    return is_formed && fflush(stdout) == 0 ? 0 : 1;
}
