/* Measures the calls of the library over an input of the program's `run`: the time of each, the deepest stack, and the
 * memory of the openings. Link it with heap_arena.c.
 *
 *     measure < INPUT
 *
 * It prints a table and asserts nothing. The line "nothing" is a call that does nothing: what the measure itself takes,
 * which is in the other lines too. Times are of this machine and this compiler, and of calls that follow one another,
 * so with warm caches; stacks are of the paths that were taken. Neither is a worst case. On a target measure in the
 * same way, with its own clock and a painted stack of its own. */
#define _XOPEN_SOURCE 700

#include "heap_arena.h"
#include "journey.h"

#include <inttypes.h>
#include <stdlib.h>
#include <string.h>
#include <time.h>
#include <ucontext.h>

enum { STACK_BYTES = 1 << 20, PAINT = 0xa5, OPENINGS = 20, NOTHINGS = 10000 };

/* The kinds of calls: those of an event as in enum event_kind, and then the others. */
enum call {
    CALL_DISPLAY = EVENT_REVOKE + 1,
    CALL_CAUSES,
    CALL_WOULD_COVER,
    CALL_WOULD_COVER_UP_TO,
    CALL_HAS_TRIP_PLACE,
    CALL_CLEAR_OF,
    CALL_OPEN,
    CALL_CLOSE,
    CALL_TAKE_OVER,
    CALL_NOTHING,
    CALLS
};

static const char *const names[CALLS] = {"sdm_cycle",          "sdm_end",
                                         "sdm_end_calculated", "sdm_limit",
                                         "sdm_restrict",       "sdm_revoke",
                                         "sdm_display",        "sdm_causes",
                                         "sdm_would_cover",    "sdm_would_cover_up_to",
                                         "sdm_has_trip_place", "sdm_clear_of",
                                         "sdm_open",           "sdm_close",
                                         "sdm_take_over",      "nothing"};

/* A call that is to be made, and what it answers. */
struct job {
    enum call call;
    struct sdm *h;
    struct sdm *next; /* which is to take over */
    const struct journey *journey;
    const struct event *event;
    uint32_t status;
};

/* The times of the calls of a kind, in ns. */
struct times {
    uint64_t *ns;
    size_t count, room;
};

static struct times times[CALLS];

/* A stack for each kind, painted once: what is no paint any more was used by one of its calls. */
static uint8_t stacks[CALLS][STACK_BYTES];
static const uint8_t *tops[CALLS];

/* Asks about a reading. */
static uint32_t ask(struct sdm *h, enum call call, const struct sdm_reading *reading) {
    static struct sdm_display display;
    static struct sdm_causes causes;
    static struct sdm_place first;
    static uint32_t is_so;
    const struct sdm_allowance allowance = {0, reading->under_mm_s, 0};
    switch (call) {
    case CALL_DISPLAY:
        return sdm_display(h, reading, &display);
    case CALL_CAUSES:
        return sdm_causes(h, reading, &causes);
    case CALL_WOULD_COVER:
        return sdm_would_cover(h, reading, &is_so);
    case CALL_WOULD_COVER_UP_TO:
        return sdm_would_cover_up_to(h, reading, &is_so);
    case CALL_HAS_TRIP_PLACE:
        return sdm_has_trip_place(h, 1000, reading->under_mm_s, &is_so);
    case CALL_CLEAR_OF:
        return sdm_clear_of(h, reading, &allowance, &first);
    default:
        abort();
    }
}

static void perform(struct job *job) {
    static struct sdm_row row;
    static struct sdm_line line;
    struct sdm_reading reading;
    switch (job->call) {
    case CALL_OPEN:
        job->status = sdm_open(job->h, job->journey->data, job->journey->data_bytes, &line);
        break;
    case CALL_CLOSE:
        sdm_close(job->h);
        break;
    case CALL_TAKE_OVER:
        job->status = sdm_take_over(job->next, job->h);
        break;
    case CALL_NOTHING:
        break;
    case CALL_DISPLAY:
    case CALL_CAUSES:
    case CALL_WOULD_COVER:
    case CALL_WOULD_COVER_UP_TO:
    case CALL_HAS_TRIP_PLACE:
    case CALL_CLEAR_OF:
        reading = event_reading(job->event);
        job->status = ask(job->h, job->call, &reading);
        break;
    default:
        job->status = event_take(job->h, job->event, &row);
    }
}

static uint64_t now_ns(void) {
    struct timespec now;
    clock_gettime(CLOCK_MONOTONIC, &now);
    return (uint64_t)now.tv_sec * 1000000000 + (uint64_t)now.tv_nsec;
}

static void add(struct times *to, uint64_t ns) {
    if (to->count == to->room) {
        to->room = to->room == 0 ? 1024 : 2 * to->room;
        to->ns = (uint64_t *)realloc(to->ns, to->room * sizeof to->ns[0]);
        if (to->ns == NULL)
            abort();
    }
    to->ns[to->count++] = ns;
}

static void perform_timed(struct job *job) {
    uint64_t before = now_ns();
    perform(job);
    add(&times[job->call], now_ns() - before);
}

static struct job *job_on_stack;

static void begin_on_stack(void) {
    volatile uint8_t here = 0;
    tops[job_on_stack->call] = (const uint8_t *)&here;
    perform(job_on_stack);
}

static void perform_on_painted_stack(struct job *job) {
    ucontext_t caller, callee;
    if (getcontext(&callee) != 0)
        abort();
    callee.uc_stack.ss_sp = stacks[job->call];
    callee.uc_stack.ss_size = STACK_BYTES;
    callee.uc_link = &caller;
    makecontext(&callee, begin_on_stack, 0);
    job_on_stack = job;
    if (swapcontext(&caller, &callee) != 0)
        abort();
}

/* The bytes from where a kind's calls began down to the lowest that one of them changed; 0 where there was none. */
static size_t depth_of(enum call call) {
    const uint8_t *lowest = stacks[call];
    if (tops[call] == NULL)
        return 0;
    while (*lowest == PAINT)
        lowest++;
    return (size_t)(tops[call] - lowest);
}

/* Changes to the same data as often as they were opened, each time from what is in force now. */
static void take_over(struct job *job, void (*make)(struct job *)) {
    static struct sdm_line line;
    for (int i = 0; i < OPENINGS; i++) {
        struct sdm next = SDM_INIT;
        if (sdm_open(&next, job->journey->data, job->journey->data_bytes, &line) != SDM_DONE)
            return;
        job->call = CALL_TAKE_OVER;
        job->next = &next;
        make(job);
        sdm_close(&next);
    }
}

/* Makes each call of a journey in one of the two ways. */
static void play(const struct journey *journey, void (*make)(struct job *)) {
    struct sdm h = SDM_INIT;
    struct event event;
    struct job job = {CALL_NOTHING, &h, NULL, journey, &event, SDM_DONE};
    const uint8_t *at = journey->records;
    unsigned column;
    for (int i = 0; i < NOTHINGS; i++)
        make(&job);
    for (int i = 0; i < OPENINGS; i++) {
        job.call = CALL_CLOSE;
        make(&job);
        job.call = CALL_OPEN;
        make(&job);
    }
    while (job.status == SDM_DONE && at < journey->end && event_read(&at, journey->end, &event, &column) == FORM_DONE) {
        job.call = (enum call)event.kind;
        make(&job);
        if (job.status != SDM_DONE || event.kind != EVENT_READ)
            continue;
        for (unsigned asked = CALL_DISPLAY; asked <= CALL_CLEAR_OF; asked++) {
            job.call = (enum call)asked;
            make(&job);
        }
    }
    take_over(&job, make);
    sdm_close(&h);
}

static int compare(const void *one, const void *other) {
    uint64_t a = *(const uint64_t *)one, b = *(const uint64_t *)other;
    return (a > b) - (a < b);
}

/* The time that so many of ten thousand calls don't take longer than. */
static uint64_t quantile(const struct times *of, size_t ten_thousandths) {
    size_t rank = (of->count * ten_thousandths + 9999) / 10000;
    return of->ns[rank > 0 ? rank - 1 : 0];
}

int main(void) {
    struct journey journey;
    if (journey_read(stdin, &journey) != JOURNEY_READ) {
        fprintf(stderr, "usage: measure < INPUT, whose records are plain\n");
        return 64;
    }
    memset(stacks, PAINT, sizeof stacks);
    play(&journey, perform_timed);
    play(&journey, perform_on_painted_stack);
    printf("%-22s %9s %12s %12s %12s %12s %12s\n", "call", "calls", "least, ns", "median, ns", "99.99 %, ns",
           "most, ns", "stack, bytes");
    for (unsigned i = 0; i < CALLS; i++) {
        struct times *of = &times[i];
        if (of->count == 0)
            continue;
        qsort(of->ns, of->count, sizeof of->ns[0], compare);
        printf("%-22s %9zu %12" PRIu64 " %12" PRIu64 " %12" PRIu64 " %12" PRIu64 " %12zu\n", names[i], of->count,
               of->ns[0], quantile(of, 5000), quantile(of, 9999), of->ns[of->count - 1], depth_of((enum call)i));
        free(of->ns);
    }
    printf("the arena was used up to its byte %zu\n", heap_arena_most());
    journey_free(&journey);
    return 0;
}
