/* A plain simulation of a supervised train: its true motion, its driver, its odometer and its computer, tick by tick,
 * within the premises of a ride (docs/ASSUMPTIONS.md, "What a ride promises"), or with one of them broken. The
 * supervisor is the library of sdm.h; all else is of this simulation alone.
 *
 * A tick is 1/s ds. True speeds are in 1/s notch, true places in 1/s² grain: 54 notches are 1 mm/s, 540,000,000 grains
 * 1 mm, and a notch takes a million grains in a ds. */
#ifndef SDM_RIDE_H
#define SDM_RIDE_H

#include "journey.h"

enum { MOST_BANDS = 10, MOST_STRETCHES = 4096, MOST_HAPPENINGS = 64, MOST_FALLS = 512, MOST_PARTS = 4 };

/* What the emergency brake gives at least: in each stretch of the track and each band of speeds, how many notches the
 * train loses in a ds, rounded up. */
struct brake {
    int64_t bands, stretches;
    int64_t uppers[MOST_BANDS];      /* notches: where each band but the last ends */
    int64_t borders[MOST_STRETCHES]; /* grains: where each stretch but the last ends */
    int64_t losses[MOST_STRETCHES][MOST_BANDS];
};

/* A place that is to be passed with at most a speed. */
struct slow_place {
    int64_t cm;
    int64_t notches;
};

/* A data part of a supervisor, and what is true of the train under it. */
struct ground {
    uint8_t *data; /* owned */
    size_t data_bytes;
    int64_t is_under_reading_inhibited;
    int64_t traction_ds, berem_ds; /* T_traction, T_berem */
    struct brake brake;
};

/* What comes from the trackside at a time, and the falls of the speed profile once it is taken, by their places. */
struct happening {
    int64_t time_ds;
    int64_t ground;      /* the data that are changed to; 0 where none are */
    struct event event;  /* of a change of data: the authority that comes with them */
    int64_t end_notches; /* of an authority to a limit: the speed of passing it; else -1 */
    int64_t has_trip;    /* of an authority: its release speed has a trip place by the bounds of the ride */
    int64_t falls_count;
    struct slow_place falls[MOST_FALLS];
};

/* Over what a ride goes. The first happening is the opening's authority once more, at time 0. */
struct world {
    int64_t grounds_count;
    struct ground grounds[MOST_PARTS];
    int64_t happenings_count;
    struct happening happenings[MOST_HAPPENINGS];
};

enum driver {
    DRIVER_AT_FULL_POWER,
    DRIVER_AT_RANDOM,
    DRIVER_LATE,     /* brakes once it is warned */
    DRIVER_CAREFUL,  /* brakes once it is above what is permitted */
    DRIVER_CREEPING, /* the same, and keeps V_est at the release speed in release speed monitoring */
    DRIVER_SURGING /* keeps V_est at the release speed; full power after the last reading before the train is tripped */
};

/* How readings are judged (sdm_ride, sdm_release_ride): what gives a promise, and what orders the emergency brake. */
enum judging { BY_ROWS, BY_RELEASE, GUARDED };

/* What a ride is made of, all of it whole numbers. */
struct scenario {
    int64_t seed;
    int64_t ticks_per_ds;
    int64_t duration_ds;
    int64_t period_ds, latency_ds, cut_off_ds, build_up_ds; /* p, c, K, E of docs/INTEGRATION.md */
    int64_t is_regular;        /* each reading comes a period after the last one, none sooner */
    int64_t missing_per_mille; /* how often a reading may come later than a period */
    int64_t place_mm, speed_mm_s;
    int64_t driver; /* enum driver */
    int64_t power_cm_s2, service_cm_s2;
    int64_t obeys_service;       /* the service brake and the traction cut-off do what is commanded */
    int64_t stronger_per_mille;  /* by how much more than A_safe the emergency brake may brake */
    int64_t ahead_mm, behind_mm; /* how far the safe front ends may lie from the true one */
    int64_t under_mm_s;          /* the under-reading amount */
    int64_t fast_mm_s;           /* how far estimated speed and under-reading amount may lie above the true speed */
    int64_t gain_cm_s2;          /* how far the reading's acceleration may lie above the true one */
    int64_t judging;             /* enum judging */
    int64_t width_mm, excess;    /* the bounds W and U of readings in release speed monitoring, U in notches */
    int64_t is_judged_late;      /* a reading is judged up to c after its moment, what comes meanwhile before it */
    int64_t repeats_per_mille;   /* how often the odometer begins to send its last reading again, for some periods */
    int64_t is_widest;           /* safe front ends lie as far apart as they may, the min one at the EOA while it can */
    struct breach {              /* how premises are broken; all 0 within them */
        int64_t ignored;         /* so many orders of the emergency brake aren't handed on */
        int64_t judges_repeated; /* a reading that repeats the time of the last one is judged */
        int64_t short_mm;        /* the max safe front end lies so far behind the true one */
        int64_t slow_mm_s;       /* the true speed is so far above what the reading allows */
        int64_t gains_cm_s2;     /* the train gains so much more than the last reading that promised says */
        int64_t is_uncut;        /* the traction works until the brake does */
        int64_t weaker_per_mille; /* the brake gives so much less than A_safe */
    } breach;
};

/* What a ride shows. */
enum verdict { KEPT, PASSED_SVL, PASSED_TARGET, NOT_JUDGED };

struct outcome {
    enum verdict verdict;
    int64_t readings, covered, released; /* released: those of release speed monitoring that gave a promise */
    int64_t orders, overdue, refused, changes, stops;
    int64_t has_nearest,
        nearest_mm; /* from the true front end to a promised SvL, the least of the ride, rounded down */
};

/* Rides once. NOT_JUDGED where the opening or a reading is refused. */
struct outcome ride(const struct world *world, const struct scenario *scenario);

#endif
