/* What the parts of the program `fault` share: checks that are counted, and two supervisors that are held against each
 * other. */
#ifndef SDM_FAULT_H
#define SDM_FAULT_H

#include "heap_test.h"
#include "journey.h"

#ifdef __cplusplus
extern "C" {
#endif

/* The identity of the restriction that is held while records are refused. */
enum { HELD_ID = 7 };

/* A fact that must hold, and what it is said of. */
void check(bool is_true, const char *fact, const char *of);

void check_answer(uint32_t status, uint32_t due, const char *of);

/* That no call of the heap came since the last heap_test_begin. */
void check_no_memory_moved(const char *of);

bool is_same_handle(struct sdm one, struct sdm other);

/* A reading of the same time and place on both: both must be in the same state, so their rows are the same. */
void compare(struct sdm *h, struct sdm *twin, const struct event *reading, const char *what);

/* Refuses a change of data in each way. The supervisor that runs is then as its twin, of which none was asked. */
void misuse_change(struct sdm *h, struct sdm *twin, const struct event *reading);

/* Changes to the same data, without memory: what comes after is as of the twin, which runs on. The next one is then in
 * the handle. */
void change_data(struct sdm *h, struct sdm *twin, const struct journey *journey, const struct event *reading,
                 const char *what);

/* Asks where a train stops of a handle without supervisor. */
void refuse_stops_closed(struct sdm *h);

/* Asks it with numbers out of their ranges, which changes nothing. */
void misuse_stops(struct sdm *h);

/* Asks it over data whose answers were worked by hand. */
void ask_stops(void);

/* What is asked of a reading before it is judged: whether it would be covered, and each up to it that asks no more. */
struct ahead {
    uint32_t is_covered, is_each_covered;
};

/* Asks it. */
void ask_ahead(struct sdm *h, const struct sdm_reading *reading, struct ahead *ahead);

/* Asks it of a reading that is refused, which writes nothing. */
void refuse_ahead(struct sdm *h, const struct sdm_reading *reading, uint32_t due, const char *what);

/* That what was asked of a reading is what its row says. */
void check_ahead(const struct ahead *ahead, const struct sdm_row *row);

/* Asks it before and past a fall of the speed, where the answers were worked by hand. */
void ask_at_a_fall(void);

/* That each number of an enum has a text of its own. */
void tell_texts(void);

/* That of a struct with numbers outside their ranges the first is named. */
void name_fields(void);

#ifdef __cplusplus
}
#endif

#endif
