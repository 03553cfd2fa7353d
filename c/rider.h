/* The parts of a simulated ride (ride.h): what a rider is, and what its computer does. */
#ifndef SDM_RIDER_H
#define SDM_RIDER_H

#include "ride.h"

enum { NOTCHES_PER_MM_S = 54, MOST_SPEED_MM_S = 138888, MOST_ACCEL = 300, A_EST2_MOST = 40 };
#define GRAINS_PER_MM INT64_C(540000000)
#define GRAINS_PER_CM INT64_C(5400000000)

/* The promise that stands: what the last reading said that gave one. */
struct promise {
    bool stands;
    const struct ground *under;
    int64_t accel_cm_s2; /* A_est1 */
    int64_t max_mm;
    bool has_svl;
    int64_t svl_cm;
    int64_t end_cm;                    /* the EOA or LOA: no fall behind it is a target */
    const struct happening *authority; /* whose end may be a target of speed */
    const struct happening *profile;   /* whose falls may be targets; null where no speed is promised */
};

/* A reading that was told and isn't judged yet. */
struct told {
    bool waits;
    struct sdm_reading reading;
    int64_t moment, judged_at; /* ticks */
};

struct rider {
    const struct world *world;
    const struct scenario *given;
    const struct ground *under;
    struct sdm supervisor;
    struct sdm_row row;
    uint64_t random;
    int64_t place, speed, gain; /* of the true train; gain in notches a ds, as driven */
    int64_t tick, read_at, silence, frozen_until;
    int64_t order; /* for how many ticks the emergency brake has been ordered; -1 where it isn't */
    int64_t ignored;
    int64_t next; /* the first happening that hasn't come */
    bool is_authority_missing, has_promised;
    int64_t furthest_cm;                         /* the SvL that lies furthest on, of those that were in force */
    const struct happening *authority, *profile; /* the last ones that were taken */
    struct told told;
    struct sdm_reading last; /* the last reading that was told */
    struct promise promise;
    struct outcome outcome;
};

/* A number from 0 up to a greatest one. */
int64_t up_to(struct rider *r, int64_t most);

int64_t divided_down(int64_t a, int64_t b);
int64_t least_of(int64_t a, int64_t b);
int64_t most_of(int64_t a, int64_t b);

/* The emergency brake is ordered, as of so many ticks ago; an order that stands goes on. */
void order(struct rider *r, int64_t since);

/* Takes what comes from the trackside. What is refused isn't supervised, so the brake is ordered; after an authority or
 * new data until one is taken. No world has a restriction that is refused. */
void take_happening(struct rider *r, const struct happening *happening);

/* Judges the reading that waits: what is ordered after it, and what it promises. False where it is refused. */
bool judge(struct rider *r);

/* Whether the train is as the last promise says; and how near it came to the SvL. */
enum verdict verdict(struct rider *r);

#endif
