/* Plays a recorded journey by the wrapper of sdm.hpp, and beside it by the calls of sdm.h: reads an input of the
 * program's `run` from standard input, whose records are plain, and compares each answer, each row, what a driver
 * can be shown, and the causes. Link it with journey.c, sdm_text.c and a heap.
 *
 *     wrapper_replay < INPUT
 *
 * It ends with 0 where all are the same, else it tells the record and ends with 1. */
#include "journey.h"
#include "sdm.hpp"

#include <cstdio>

using sdm_cpp::Status;
using sdm_cpp::Supervisor;

/* Two supervisors of one journey. */
struct Pair {
    Supervisor wrapped;
    struct sdm plain;
};

static std::uint32_t word(std::int64_t number) { return static_cast<std::uint32_t>(number); }

static bool is_same_display(const sdm_cpp::Display &one, const sdm_cpp::Display &other) {
    return one.time_ds == other.time_ds && one.permitted_kmh == other.permitted_kmh && one.sbi_kmh == other.sbi_kmh &&
           one.ebi_kmh == other.ebi_kmh && one.release_kmh == other.release_kmh && one.target == other.target &&
           one.target_kmh == other.target_kmh && one.distance_mm == other.distance_mm;
}

static bool is_same_cause(const sdm_cause &one, const sdm_cause &other) {
    return one.rule == other.rule && one.target == other.target && one.target_kmh == other.target_kmh &&
           one.target_mm == other.target_mm && one.limit_mm == other.limit_mm;
}

static bool are_same_causes(const sdm_cpp::Causes &one, const sdm_cpp::Causes &other) {
    return one.time_ds == other.time_ds && one.tco == other.tco && one.sb == other.sb && one.eb == other.eb &&
           is_same_cause(one.over, other.over) && is_same_cause(one.warn, other.warn) &&
           is_same_cause(one.serv, other.serv) && is_same_cause(one.emer, other.emer);
}

/* Asks both whether a reading would be covered, whether the release speed has a trip place for its bounds, and for the
 * first place that it is clear of. */
static bool ask(Pair &pair, const struct sdm_reading &reading) {
    const std::uint32_t width_cm = (static_cast<std::uint32_t>(reading.max_mm - reading.min_mm) + 9) / 10;
    const sdm_cpp::Allowance allowance = {0, reading.under_mm_s, 0};
    std::uint32_t is_covered = 0, is_each_covered = 0, has_place = 0;
    struct sdm_place first = {};
    if (sdm_would_cover(&pair.plain, &reading, &is_covered) != SDM_DONE ||
        sdm_would_cover_up_to(&pair.plain, &reading, &is_each_covered) != SDM_DONE ||
        sdm_has_trip_place(&pair.plain, width_cm, reading.under_mm_s, &has_place) != SDM_DONE ||
        sdm_clear_of(&pair.plain, &reading, &allowance, &first) != SDM_DONE)
        return false;
    auto one = pair.wrapped.would_cover(reading), each = pair.wrapped.would_cover_up_to(reading);
    auto trip = pair.wrapped.has_trip_place(width_cm, reading.under_mm_s);
    auto clear = pair.wrapped.clear_of(reading, allowance);
    return one && *one == (is_covered == 1) && each && *each == (is_each_covered == 1) && trip &&
           *trip == (has_place == 1) && clear && *clear == sdm_cpp::place_mm(first);
}

/* Judges a reading by both, and asks both for what a driver can be shown, for the causes and for what else may be asked. */
static bool read(Pair &pair, const struct event &event) {
    struct sdm_reading reading = event_reading(&event);
    struct sdm_row row = {};
    sdm_cpp::Display display = {};
    Status due = Status(sdm_cycle(&pair.plain, &reading, &row));
    auto found = pair.wrapped.cycle(reading);
    if (due != Status::done)
        return !found && found.error() == due;
    if (!found || !row_is_same(&*found, &row))
        return false;
    due = Status(sdm_display(&pair.plain, &reading, &display));
    auto shown = pair.wrapped.display(reading);
    if (due != Status::done || !shown || !is_same_display(*shown, display))
        return false;
    sdm_cpp::Causes causes = {};
    due = Status(sdm_causes(&pair.plain, &reading, &causes));
    auto told = pair.wrapped.causes(reading);
    return due == Status::done && told && are_same_causes(*told, causes) && ask(pair, reading);
}

/* What the wrapper answers to an event that is no reading. */
static Status wrapped_take(Supervisor &supervisor, const struct event &event) {
    const std::int64_t *numbers = event.numbers;
    switch (event.kind) {
    case EVENT_END:
        return supervisor.end(word(numbers[0]), word(numbers[1]), word(numbers[2]));
    case EVENT_END_CALCULATED:
        return supervisor.end_calculated(word(numbers[0]), word(numbers[1]), word(numbers[2]));
    case EVENT_LIMIT:
        return supervisor.limit(word(numbers[0]), word(numbers[1]));
    case EVENT_RESTRICT:
        return supervisor.set_restriction(
            {word(numbers[0]), word(numbers[1]), word(numbers[2]), word(numbers[3]), word(numbers[4])});
    case EVENT_REVOKE:
        return supervisor.revoke(word(numbers[0]));
    case EVENT_READ:
        break;
    }
    std::abort();
}

/* Hands an event to both; whether they answer the same. */
static bool take(Pair &pair, const struct event &event) {
    if (event.kind == EVENT_READ)
        return read(pair, event);
    return wrapped_take(pair.wrapped, event) == Status(event_take(&pair.plain, &event, nullptr));
}

/* Plays the records up to the first whose form is refused; how many were the same, and whether all were. */
static bool play(Pair &pair, const struct journey &journey) {
    const std::uint8_t *at = journey.records;
    struct event event;
    unsigned column, number = 0;
    while (at < journey.end && event_read(&at, journey.end, &event, &column) == FORM_DONE) {
        number++;
        if (!take(pair, event)) {
            std::printf("wrapper_replay: record %u is answered otherwise\n", number);
            return false;
        }
    }
    std::printf("wrapper_replay: %u records, each answered the same\n", number);
    return true;
}

/* Opens both supervisors, and plays the journey; where the data are refused, both refuse them by the same line. */
static bool replay(const struct journey &journey) {
    std::string_view data(reinterpret_cast<const char *>(journey.data), journey.data_bytes);
    auto opened = Supervisor::open(data);
    struct sdm plain = SDM_INIT;
    struct sdm_line line = {};
    Status due = Status(sdm_open(&plain, journey.data, journey.data_bytes, &line));
    if (due != Status::done) {
        std::string_view told(reinterpret_cast<const char *>(line.bytes), line.count);
        std::printf("wrapper_replay: the data are refused: %.*s", int(line.count), told.data());
        return !opened && opened.error().status == due && opened.error().line() == told;
    }
    Pair pair = {std::move(*opened), plain};
    bool is_same = play(pair, journey);
    sdm_close(&pair.plain);
    return is_same;
}

int main() {
    struct journey journey;
    if (journey_read(stdin, &journey) != JOURNEY_READ) {
        std::fprintf(stderr, "usage: wrapper_replay < INPUT, whose records are plain\n");
        return 64;
    }
    bool is_same = replay(journey);
    journey_free(&journey);
    return is_same ? 0 : 1;
}
