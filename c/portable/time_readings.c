/* Tells what a reading of an input of `run` takes: the least of the mean times of some rounds, and of the openings.
 *
 *     time_readings ROUNDS < INPUT    readings, ns of processor time for each, microseconds of an opening */
#define _XOPEN_SOURCE 700

#include "journey.h"

#include <stdlib.h>
#include <time.h>

enum { MOST_EVENTS = 100000 };

static struct event events[MOST_EVENTS];

static double now_ns(void) {
    struct timespec now;
    clock_gettime(CLOCK_PROCESS_CPUTIME_ID, &now);
    return (double)now.tv_sec * 1e9 + (double)now.tv_nsec;
}

/* The events of a journey: how many. */
static size_t read_events(const struct journey *journey) {
    const uint8_t *at = journey->records;
    size_t count = 0;
    unsigned column;
    while (at < journey->end && count < MOST_EVENTS &&
           event_read(&at, journey->end, &events[count], &column) == FORM_DONE)
        count++;
    return count;
}

/* Plays all events on a new supervisor: the time of the opening, and of the events. */
static bool play(const struct journey *journey, size_t count, double *opening, double *taken) {
    static struct sdm_line line;
    static struct sdm_row row;
    struct sdm h = SDM_INIT;
    double begun = now_ns();
    if (sdm_open(&h, journey->data, journey->data_bytes, &line) != SDM_DONE)
        return false;
    double opened = now_ns();
    bool is_taken = true;
    for (size_t i = 0; i < count && is_taken; i++)
        is_taken = event_take(&h, &events[i], &row) == SDM_DONE;
    *taken = now_ns() - opened;
    *opening = opened - begun;
    sdm_close(&h);
    return is_taken;
}

int main(int words, char **word) {
    struct journey journey;
    int rounds = words == 2 ? atoi(word[1]) : 0;
    if (rounds < 1 || journey_read(stdin, &journey) != JOURNEY_READ)
        return 64;
    size_t count = read_events(&journey), readings = 0;
    double least_opening = 1e18, least_taken = 1e18, opening, taken;
    for (size_t i = 0; i < count; i++)
        readings += events[i].kind == EVENT_READ;
    for (int round = 0; round < rounds; round++) {
        if (!play(&journey, count, &opening, &taken))
            return 1;
        least_opening = opening < least_opening ? opening : least_opening;
        least_taken = taken < least_taken ? taken : least_taken;
    }
    printf("%zu %.0f %.0f\n", readings, least_taken / (double)readings, least_opening / 1e3);
    journey_free(&journey);
    return 0;
}
