/* sdm: the speed and distance monitoring of ETCS (SUBSET-026-3 3.13, issue 3.6.0, in the profile of docs/PROFILE.md),
 * for C.
 *
 * Open a supervisor once over the data of a journey; then pass it every reading of the odometer, movement authority
 * and restriction in the order in which they come. sdm_open takes all memory, and sdm_close frees it; no other call
 * takes any. Each call returns an enum sdm_status; with any but SDM_DONE it changes nothing but the line of sdm_open.
 *
 * Units: times in tenths of a second (ds), places of the front end in millimetres, places of the track in centimetres,
 * speeds in km/h, those of a reading in mm/s. What the columns of a row mean: docs/FORMATS.md.
 *
 * Duties of the caller, which nothing checks: docs/FROM-C.md. C11 or later, or C++11 or later. */
#ifndef SDM_H
#define SDM_H

#include <stddef.h>
#include <stdint.h>

#ifdef __cplusplus
extern "C" {
#endif

/* The number of this header's layout: compare it with sdm_layout() before the first other call. The shared library
 * carries it in its name, libsdm.so.2, and in the version of each symbol, SDM_2.
 *
 * It rises with each change that breaks programs compiled with the header before: another size, offset, unit, range or
 * meaning of what exists, another number of a status, or a call that is gone, has other arguments or needs another
 * order. A new call or a new status leaves it as it is. So take each status but SDM_DONE for a refusal, also one that
 * isn't listed here. */
#define SDM_LAYOUT 2u

/* The version of this header as a number: 1,000,000 for each of its first number, 1,000 for each of its second and 1 for
 * each of its third. A program tests it before it uses a call that an older version lacks; sdm_version() says it of the
 * library. */
#define SDM_VERSION 11001u /* 0.11.1 */

/* Makes compilers warn of a call whose status is ignored, where they can. */
#if defined(__cplusplus) && __cplusplus >= 201703L
#define SDM_MUST_CHECK [[nodiscard]]
#elif defined(__STDC_VERSION__) && __STDC_VERSION__ >= 202311L
#define SDM_MUST_CHECK [[nodiscard]]
#elif defined(__GNUC__)
#define SDM_MUST_CHECK __attribute__((warn_unused_result))
#else
#define SDM_MUST_CHECK
#endif

/* What a call returns. */
enum sdm_status {
    SDM_DONE = 0,
    SDM_CLOSED = 1,         /* the handle has no supervisor: sdm_open comes first */
    SDM_IN_USE = 2,         /* sdm_open: the handle has one already */
    SDM_NO_MEMORY = 3,      /* sdm_open: memory is refused */
    SDM_BAD_DATA = 4,       /* sdm_open: the data break a rule; the line says which */
    SDM_REFUSED = 5,        /* sdm_open: the slopes or the first authority are refused; the line says why */
    SDM_OUT_OF_RANGE = 6,   /* a number is outside its range */
    SDM_TIME_BACK = 7,      /* the reading's time is before that of the last one taken */
    SDM_SVL_BEFORE_EOA = 8, /* the supervised location lies before the end of authority */
    SDM_BEYOND_TRACK = 9,   /* the supervised location or the limit lies past the track's end */
    SDM_BAD_SPEED = 10,     /* the limit's speed is 0 or too high, or the release speed is too high */
    SDM_BAD_TRIP = 11,      /* the trip's place lies before the end of authority or past the supervised location */
    SDM_FULL = 12,          /* as many restrictions as may be (32) are held */
    SDM_ID_IN_USE = 13,     /* a restriction with this identity is held */
    SDM_BAD_PLACES = 14,    /* the restriction ends at or before its start, or past the track's end */
    SDM_UNKNOWN_ID = 15,    /* no restriction with this identity is held */
    SDM_NOT_FRESH = 16      /* sdm_take_over: the next supervisor has had a reading or a restriction */
};

/* What a handle holds, in 64 bits on each processor. */
#if UINTPTR_MAX == UINT64_MAX
typedef void *sdm_at;
#else
typedef uint64_t sdm_at;
#endif

/* A supervisor, or none. It begins as SDM_INIT; after that the calls alone read and write it. It may be moved, never
 * copied. */
struct sdm {
    sdm_at at;
    uint32_t is_open;
};
#define SDM_INIT                                                                                                       \
    { 0, 0 }

/* The line that the program sdm writes for data that are refused, with its line feed and no zero at its end. */
struct sdm_line {
    uint32_t count; /* of the bytes that count, from the first on */
    uint8_t bytes[192];
};

/* A reading of the odometer. */
struct sdm_reading {
    uint32_t time_ds;    /* 0 to 100,000,000, not below that of the last reading taken */
    int32_t est_mm;      /* the estimated front end, -10,000,000 to 110,000,000 */
    int32_t min_mm;      /* the min safe front end, -10,000,000 to est_mm */
    int32_t max_mm;      /* the max safe front end, est_mm to 110,000,000 */
    uint32_t speed_mm_s; /* V_est, 0 to 138,888; 0 is for proven standstill alone */
    int32_t accel_cm_s2; /* A_est, -300 to 300 */
    uint32_t under_mm_s; /* the under-reading amount, 0 to 10,000 */
};

/* The type of speed and distance monitoring. */
enum sdm_state { SDM_CEILING = 0, SDM_TARGET = 1, SDM_RELEASE = 2 };

/* The supervision status. */
enum sdm_supervision { SDM_NORMAL = 0, SDM_INDICATION = 1, SDM_OVERSPEED = 2, SDM_WARNING = 3, SDM_INTERVENTION = 4 };

/* A place, or none. */
struct sdm_place {
    int64_t mm; /* rounded down; 0 where there is none */
    uint32_t is_some;
};

/* What is commanded after a reading. Flags are 0 or 1. */
struct sdm_row {
    uint32_t time_ds; /* the reading's */
    uint32_t state;   /* enum sdm_state */
    uint32_t status;  /* enum sdm_supervision */
    uint32_t tco;     /* the traction cut-off is commanded */
    uint32_t sb;      /* the service brake is commanded */
    uint32_t eb;      /* the emergency brake is commanded */
    uint32_t covered; /* every motion within the reading's bounds that brakes within the configured times stops at or
                       * before the supervised location, where the authority has one, and passes each speed target with
                       * at most its speed and its EBI margin (docs/ASSUMPTIONS.md, "What covered promises") */
    uint32_t ceiling_kmh;
    /* The places of the limits at the reading's speed. */
    struct sdm_place ebi;
    struct sdm_place sbi;
    struct sdm_place warning;
    struct sdm_place permitted;
    struct sdm_place indication;
};

/* A temporary speed restriction. */
struct sdm_restriction {
    uint32_t id; /* 0 to 65,535 */
    uint32_t start_cm;
    uint32_t end_cm;     /* above start_cm, at most the track's length */
    uint32_t speed_kmh;  /* 1 to 500 */
    uint32_t is_delayed; /* 0, or 1: its end counts for the rear end of the train */
};

/* What a train may be beyond its estimate at a reading, and gain after it. */
struct sdm_allowance {
    uint32_t front_mm;    /* past the estimated front end, 0 to 10,000,000 */
    uint32_t speed_mm_s;  /* faster than V_est, 0 to 10,000 */
    uint32_t accel_cm_s2; /* gained after the reading, 0 to 300 */
};

/* A number of a struct that is outside its range. */
enum sdm_field {
    SDM_NO_FIELD = 0,
    SDM_READING_TIME_DS = 1,
    SDM_READING_EST_MM = 2,
    SDM_READING_MIN_MM = 3,
    SDM_READING_MAX_MM = 4,
    SDM_READING_SPEED_MM_S = 5,
    SDM_READING_ACCEL_CM_S2 = 6,
    SDM_READING_UNDER_MM_S = 7,
    SDM_RESTRICTION_ID = 8,
    SDM_RESTRICTION_SPEED_KMH = 9,
    SDM_RESTRICTION_IS_DELAYED = 10,
    SDM_ALLOWANCE_FRONT_MM = 11,
    SDM_ALLOWANCE_SPEED_MM_S = 12,
    SDM_ALLOWANCE_ACCEL_CM_S2 = 13
};

/* The kind of a target: a fall of the speed profile, the end of authority, the supervised location, the
 * limit of authority. */
enum sdm_target { SDM_NO_TARGET = 0, SDM_FALL = 1, SDM_EOA = 2, SDM_SVL = 3, SDM_LOA = 4 };

/* What the driver can be shown of a reading: the greatest whole speeds at which a limit isn't passed, and the target
 * that counts. */
struct sdm_display {
    uint32_t time_ds; /* the reading's */
    uint32_t permitted_kmh;
    uint32_t sbi_kmh;
    uint32_t ebi_kmh;
    uint32_t release_kmh; /* 0 where the authority has none */
    uint32_t target;      /* enum sdm_target */
    uint32_t target_kmh;  /* its speed; 0 for an end of authority and a supervised location, and where there is none */
    int64_t distance_mm;  /* to the target; 0 where it is passed, or where there is none */
};

/* Why a trigger holds: above the ceiling; past the limit of a target; past the end of authority; above the release
 * speed; past a limit of the service brake, which isn't in use. */
enum sdm_rule {
    SDM_NO_RULE = 0,
    SDM_ABOVE_CEILING = 1,
    SDM_PAST_TARGET = 2,
    SDM_PAST_END = 3,
    SDM_ABOVE_RELEASE = 4,
    SDM_NO_SERVICE_BRAKE = 5
};

/* The first cause of a trigger, in the order of enum sdm_rule and of the targets; none where it doesn't hold. */
struct sdm_cause {
    uint32_t rule;       /* enum sdm_rule */
    uint32_t target;     /* enum sdm_target; SDM_NO_TARGET unless SDM_PAST_TARGET, and then all below is 0 */
    uint32_t target_kmh; /* its speed */
    int64_t target_mm;   /* its place */
    int64_t limit_mm;    /* its limit that is passed, rounded down */
};

/* How a command stands: it isn't commanded; a cause of it stands; none does, and it is held until the train is within
 * the permitted speed, until it stands, or until either. */
enum sdm_standing {
    SDM_OFF = 0,
    SDM_SET = 1,
    SDM_HELD_TO_PERMITTED_SPEED = 2,
    SDM_HELD_TO_STANDSTILL = 3,
    SDM_HELD_TO_EITHER = 4
};

/* Why a reading triggers, and how each command stands after it. */
struct sdm_causes {
    uint32_t time_ds;      /* the reading's */
    uint32_t tco;          /* the traction cut-off: enum sdm_standing */
    uint32_t sb;           /* the service brake: enum sdm_standing */
    uint32_t eb;           /* the emergency brake: enum sdm_standing */
    struct sdm_cause over; /* above the permitted speed */
    struct sdm_cause warn; /* past a warning limit: it cuts traction off */
    struct sdm_cause serv; /* past a limit of the service brake: it commands that, and cuts traction off */
    struct sdm_cause emer; /* an emergency: it commands the emergency brake, and cuts traction off */
};

/* The comment of each call ends with what it returns but SDM_DONE, in the order in which it checks. Pointers are valid
 * and none of them null, as docs/FROM-C.md says. */

/* The number of the layout that the library was built for: SDM_LAYOUT, or the two don't belong together. */
uint32_t sdm_layout(void);

/* The version of the library, in the form of SDM_VERSION. */
uint32_t sdm_version(void);

/* The text of a status: a few English words with a zero at their end, which stay as long as the program runs. They are
 * for people: another version may word them differently. A number that is no status has a text too. */
const char *sdm_status_text(uint32_t status);

/* The text of a state of a row (enum sdm_state), as sdm_status_text has it. */
const char *sdm_state_text(uint32_t state);

/* The text of the supervision status of a row (enum sdm_supervision), as sdm_status_text has it. */
const char *sdm_supervision_text(uint32_t supervision);

/* The text of the rule of a cause (enum sdm_rule), as sdm_status_text has it. */
const char *sdm_rule_text(uint32_t rule);

/* The text of a field (enum sdm_field): which number of which struct, with its range, as sdm_status_text has it. */
const char *sdm_field_text(uint32_t field);

/* Opens a supervisor over a data part in TOML, of version 1 or 2 (docs/FORMATS.md), which it doesn't keep. SDM_BAD_DATA
 * and SDM_REFUSED write the line; all others leave it as it is. SDM_IN_USE, SDM_BAD_DATA, SDM_REFUSED; SDM_NO_MEMORY
 * may replace each but SDM_IN_USE. */
SDM_MUST_CHECK uint32_t sdm_open(struct sdm *h, const uint8_t *data, size_t data_bytes, struct sdm_line *line);

/* Judges a reading and writes its row. SDM_CLOSED, SDM_OUT_OF_RANGE, SDM_TIME_BACK. */
SDM_MUST_CHECK uint32_t sdm_cycle(struct sdm *h, const struct sdm_reading *reading, struct sdm_row *row);

/* Replaces the movement authority by one to an end, with a supervised location and a release speed (0 to 500; 0:
 * none). SDM_CLOSED, SDM_SVL_BEFORE_EOA, SDM_BEYOND_TRACK, SDM_BAD_SPEED. */
SDM_MUST_CHECK uint32_t sdm_end(struct sdm *h, uint32_t eoa_cm, uint32_t svl_cm, uint32_t release_kmh);

/* As sdm_end, with the calculated release speed for a trip at a place (SUBSET-026-3 3.13.9.4.8). SDM_CLOSED,
 * SDM_SVL_BEFORE_EOA, SDM_BEYOND_TRACK, SDM_BAD_TRIP. */
SDM_MUST_CHECK uint32_t sdm_end_calculated(struct sdm *h, uint32_t eoa_cm, uint32_t svl_cm, uint32_t trip_cm);

/* Replaces the movement authority by one to a limit, which is passed at its speed (1 to 500). SDM_CLOSED,
 * SDM_BEYOND_TRACK, SDM_BAD_SPEED. */
SDM_MUST_CHECK uint32_t sdm_limit(struct sdm *h, uint32_t loa_cm, uint32_t speed_kmh);

/* Puts a temporary speed restriction into force. SDM_CLOSED, SDM_OUT_OF_RANGE, SDM_FULL, SDM_ID_IN_USE,
 * SDM_BAD_PLACES. */
SDM_MUST_CHECK uint32_t sdm_restrict(struct sdm *h, const struct sdm_restriction *restriction);

/* Lifts the restriction with an identity. SDM_CLOSED, SDM_OUT_OF_RANGE, SDM_UNKNOWN_ID. */
SDM_MUST_CHECK uint32_t sdm_revoke(struct sdm *h, uint32_t id);

/* Lets a supervisor that was opened over new data take over from the one that ran before, between two readings: the
 * restrictions in force, the time of the last reading, and the commands with the status. Its data and its authority stay,
 * and the one before isn't changed. The two are two handles, and places of both data count from one origin. SDM_CLOSED
 * where one of them has no supervisor, SDM_NOT_FRESH, SDM_BAD_PLACES where a restriction in force ends past the end of
 * the new track. */
SDM_MUST_CHECK uint32_t sdm_take_over(struct sdm *next, const struct sdm *before);

/* Writes what the driver can be shown of a reading, by what is in force; call it after sdm_cycle has taken the reading.
 * It changes no supervisor. SDM_CLOSED, SDM_OUT_OF_RANGE. */
SDM_MUST_CHECK uint32_t sdm_display(struct sdm *h, const struct sdm_reading *reading, struct sdm_display *display);

/* Writes why a reading triggers, and how each command stands after it; ask it once sdm_cycle has taken the reading, so
 * that the commands are those of its row. It changes no supervisor. SDM_CLOSED, SDM_OUT_OF_RANGE. */
SDM_MUST_CHECK uint32_t sdm_causes(struct sdm *h, const struct sdm_reading *reading, struct sdm_causes *causes);

/* Writes 1 where the row of a reading would be covered if the reading were the next one, else 0. The reading's time is
 * tested for its range alone. It changes no supervisor. SDM_CLOSED, SDM_OUT_OF_RANGE. */
SDM_MUST_CHECK uint32_t sdm_would_cover(struct sdm *h, const struct sdm_reading *reading, uint32_t *is_covered);

/* Writes 1 where a reading would cover each target past its min safe front end, else 0. Where it is 1, each reading is
 * covered or in SDM_RELEASE whose max safe front end is from min_mm to max_mm of the asked one, and whose V_est with the
 * under-reading amount and whose acceleration are at most its own, under the data, the authority and the restrictions in
 * force (docs/INTEGRATION.md, "Before a gap"). The asked reading's time is tested for its range alone. It changes no
 * supervisor. SDM_CLOSED, SDM_OUT_OF_RANGE. */
SDM_MUST_CHECK uint32_t sdm_would_cover_up_to(struct sdm *h, const struct sdm_reading *asked, uint32_t *is_covered);

/* Writes 1 where the authority in force is an end whose release speed has a trip place, else 0, for readings that keep two
 * bounds until the train is tripped: width_cm from the min to the max safe front end, and excess_mm_s by which the train
 * may get faster than V_est until its emergency brake works (docs/INTEGRATION.md, "A calculated release speed"). An end
 * without release speed is asked as one of 0. It changes no supervisor. SDM_CLOSED. */
SDM_MUST_CHECK uint32_t sdm_has_trip_place(struct sdm *h, uint32_t width_cm, uint32_t excess_mm_s, uint32_t *has_place);

/* Writes the first whole millimetre of the track by which the service brake stops the train, where the train is beyond
 * the reading's estimate and gains speed by the allowance at most; none where the track ends before it. It asks neither
 * targets nor commands, and changes no supervisor. SDM_CLOSED, SDM_OUT_OF_RANGE. */
SDM_MUST_CHECK uint32_t sdm_clear_of(struct sdm *h, const struct sdm_reading *reading,
                                     const struct sdm_allowance *allowance, struct sdm_place *first);

/* The first number of a reading that is outside its range, in the order of the struct (enum sdm_field): why a call that
 * takes the reading returns SDM_OUT_OF_RANGE. SDM_NO_FIELD exactly where none is. */
uint32_t sdm_reading_field(const struct sdm_reading *reading);

/* The first of a restriction's identity, speed and flag that is outside its range, as sdm_reading_field has it. */
uint32_t sdm_restriction_field(const struct sdm_restriction *restriction);

/* The first number of an allowance that is outside its range, as sdm_reading_field has it. */
uint32_t sdm_allowance_field(const struct sdm_allowance *allowance);

/* Frees the memory and leaves the handle as SDM_INIT. Does nothing to a handle that has no supervisor. */
void sdm_close(struct sdm *h);

/* The layout that the library was built for. Where one of these fails, the target isn't one for which it was built. */
#ifdef __cplusplus
#define SDM_IS_TRUE(fact) static_assert(fact, #fact)
#else
#define SDM_IS_TRUE(fact) _Static_assert(fact, #fact)
#endif
#define SDM_SIZE(type, bytes) SDM_IS_TRUE(sizeof(struct type) == (bytes))
#define SDM_AT(type, field, bytes) SDM_IS_TRUE(offsetof(struct type, field) == (bytes))

SDM_SIZE(sdm, 16);
SDM_AT(sdm, at, 0);
SDM_AT(sdm, is_open, 8);

SDM_SIZE(sdm_line, 196);
SDM_AT(sdm_line, count, 0);
SDM_AT(sdm_line, bytes, 4);

SDM_SIZE(sdm_reading, 28);
SDM_AT(sdm_reading, time_ds, 0);
SDM_AT(sdm_reading, est_mm, 4);
SDM_AT(sdm_reading, min_mm, 8);
SDM_AT(sdm_reading, max_mm, 12);
SDM_AT(sdm_reading, speed_mm_s, 16);
SDM_AT(sdm_reading, accel_cm_s2, 20);
SDM_AT(sdm_reading, under_mm_s, 24);

SDM_SIZE(sdm_place, 16);
SDM_AT(sdm_place, mm, 0);
SDM_AT(sdm_place, is_some, 8);

SDM_SIZE(sdm_row, 112);
SDM_AT(sdm_row, time_ds, 0);
SDM_AT(sdm_row, state, 4);
SDM_AT(sdm_row, status, 8);
SDM_AT(sdm_row, tco, 12);
SDM_AT(sdm_row, sb, 16);
SDM_AT(sdm_row, eb, 20);
SDM_AT(sdm_row, covered, 24);
SDM_AT(sdm_row, ceiling_kmh, 28);
SDM_AT(sdm_row, ebi, 32);
SDM_AT(sdm_row, sbi, 48);
SDM_AT(sdm_row, warning, 64);
SDM_AT(sdm_row, permitted, 80);
SDM_AT(sdm_row, indication, 96);

SDM_SIZE(sdm_restriction, 20);
SDM_AT(sdm_restriction, id, 0);
SDM_AT(sdm_restriction, start_cm, 4);
SDM_AT(sdm_restriction, end_cm, 8);
SDM_AT(sdm_restriction, speed_kmh, 12);
SDM_AT(sdm_restriction, is_delayed, 16);

SDM_SIZE(sdm_allowance, 12);
SDM_AT(sdm_allowance, front_mm, 0);
SDM_AT(sdm_allowance, speed_mm_s, 4);
SDM_AT(sdm_allowance, accel_cm_s2, 8);

SDM_SIZE(sdm_display, 40);
SDM_AT(sdm_display, time_ds, 0);
SDM_AT(sdm_display, permitted_kmh, 4);
SDM_AT(sdm_display, sbi_kmh, 8);
SDM_AT(sdm_display, ebi_kmh, 12);
SDM_AT(sdm_display, release_kmh, 16);
SDM_AT(sdm_display, target, 20);
SDM_AT(sdm_display, target_kmh, 24);
SDM_AT(sdm_display, distance_mm, 32);

SDM_SIZE(sdm_cause, 32);
SDM_AT(sdm_cause, rule, 0);
SDM_AT(sdm_cause, target, 4);
SDM_AT(sdm_cause, target_kmh, 8);
SDM_AT(sdm_cause, target_mm, 16);
SDM_AT(sdm_cause, limit_mm, 24);

SDM_SIZE(sdm_causes, 144);
SDM_AT(sdm_causes, time_ds, 0);
SDM_AT(sdm_causes, tco, 4);
SDM_AT(sdm_causes, sb, 8);
SDM_AT(sdm_causes, eb, 12);
SDM_AT(sdm_causes, over, 16);
SDM_AT(sdm_causes, warn, 48);
SDM_AT(sdm_causes, serv, 80);
SDM_AT(sdm_causes, emer, 112);

#undef SDM_AT
#undef SDM_SIZE
#undef SDM_IS_TRUE

#ifdef __cplusplus
}
#endif

#endif
