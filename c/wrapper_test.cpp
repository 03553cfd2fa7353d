/* Tries the wrapper of sdm.hpp over the data of an input of the program's `run`, whose first authority is to an end, as
 * that of examples/approach. Link it with heap_test.c and journey.c.
 *
 *     wrapper_test < INPUT
 *
 * It ends with 0 where each answer is that of the call below, and each supervisor is closed once; else it tells what
 * isn't so and ends with 1. */
#include "heap_test.h"
#include "journey.h"
#include "sdm.hpp"

#include <climits>
#include <cstdio>
#include <type_traits>

using sdm_cpp::Reading;
using sdm_cpp::Status;
using sdm_cpp::Supervisor;

static_assert(!std::is_copy_constructible_v<Supervisor> && !std::is_copy_assignable_v<Supervisor>,
              "nobody copies a handle");
static_assert(std::is_nothrow_move_constructible_v<Supervisor> && std::is_nothrow_move_assignable_v<Supervisor>,
              "a supervisor can stand in a container");
static_assert(!std::is_default_constructible_v<Supervisor>, "a supervisor was opened");

static unsigned checks, failures;

/* A fact that must hold, and what it is said of. */
static void check(bool is_true, const char *fact, const char *of) {
    checks++;
    if (is_true)
        return;
    failures++;
    std::printf("wrapper_test: not so of %s: %s\n", of, fact);
}

static const Reading AT_THE_START = {0, 0, 0, 0, 1000, 0, 0};
static const Reading EARLIER = {0, 0, 0, 0, 0, 0, 0};
static const Reading LATER = {10, 0, 0, 0, 1000, 0, 0};
static const Reading TOO_FAST = {10, 0, 0, 0, 138889, 0, 0};

static unsigned long held() { return heap_test_counts().held; }

/* Each refusal comes through as it is. */
static void refuse(Supervisor &supervisor) {
    static const char of[] = "a refusal";
    check(supervisor.cycle(TOO_FAST).error() == Status::out_of_range, "a reading out of its range", of);
    check(supervisor.cycle(EARLIER).error() == Status::time_back, "a reading of an earlier time", of);
    check(supervisor.display(TOO_FAST).error() == Status::out_of_range, "a display out of its range", of);
    check(supervisor.causes(TOO_FAST).error() == Status::out_of_range, "causes out of their range", of);
    check(supervisor.end(1, 0, 0) == Status::svl_before_eoa, "an SvL before the EOA", of);
    check(supervisor.end(0, 10000001, 0) == Status::beyond_track, "an SvL past the track", of);
    check(supervisor.end(0, 0, 501) == Status::bad_speed, "a release speed that is too high", of);
    check(supervisor.end_calculated(1, 1, 0) == Status::bad_trip, "a trip before the EOA", of);
    check(supervisor.limit(0, 0) == Status::bad_speed, "a limit without speed", of);
    check(supervisor.set_restriction({1, 1, 1, 100, 0}) == Status::bad_places, "a restriction without length", of);
    check(supervisor.revoke(7) == Status::unknown_id, "an identity that isn't held", of);
}

/* What is taken is in force: the display of a reading at the start tells of it. */
static void take(Supervisor &supervisor) {
    static const char of[] = "a record that is taken";
    check(supervisor.limit(5000, 1) == Status::done, "a limit that is slower than the train", of);
    auto shown = supervisor.display(LATER);
    check(shown && shown->target == SDM_LOA && shown->target_kmh == 1 && shown->distance_mm == 50000,
          "it is the target", of);
    check(supervisor.end_calculated(5000, 6000, 6000) == Status::done, "a calculated end", of);
    check(supervisor.end(5000, 6000, 0) == Status::done, "an end", of);
    shown = supervisor.display(LATER);
    check(shown && shown->target == SDM_EOA && shown->target_kmh == 0 && shown->distance_mm == 50000,
          "it is the target", of);
    check(supervisor.set_restriction({7, 0, 1000, 3, 0}) == Status::done, "a restriction", of);
    auto row = supervisor.cycle(LATER);
    check(row && row->time_ds == 10 && row->ceiling_kmh == 3, "it is the ceiling", of);
    auto told = supervisor.causes(LATER);
    check(told && told->time_ds == 10 && told->over.rule == SDM_ABOVE_CEILING, "it is the cause", of);
    check(supervisor.set_restriction({7, 0, 1000, 3, 0}) == Status::id_in_use, "its identity is in use", of);
    check(supervisor.revoke(7) == Status::done, "a revocation", of);
}

/* Where a train of 20 m/s at 800 m stops, which brakes with 1 m/s² at once, as that of examples/approach: 200 m on, with
 * 1 m/s more 220.5 m; and the release speeds of an EOA 2 m before its SvL, which are up to 7.2 km/h. */
static void stop(Supervisor &supervisor) {
    static const char of[] = "where a train stops";
    static const Reading reading = {10, 800000, 800000, 800000, 20000, 0, 0};
    static const Reading fast = {10, 800000, 800000, 800000, 60000, 0, 0};
    auto first = supervisor.clear_of(reading, {0, 0, 0});
    check(first && *first == 1000000, "the first place", of);
    first = supervisor.clear_of(reading, {0, 1000, 0});
    check(first && *first == 1020500, "the first place with an allowance", of);
    first = supervisor.clear_of(fast, {0, 0, 0});
    check(first && !first->has_value(), "no place past the track", of);
    check(supervisor.clear_of(reading, {0, 0, 301}).error() == Status::out_of_range, "an allowance out of range", of);
    check(supervisor.end(100000, 100200, 7) == Status::done, "a release speed", of);
    auto has_place = supervisor.has_trip_place(10, 0);
    check(has_place && *has_place, "its trip place", of);
    has_place = supervisor.has_trip_place(11, 0);
    check(has_place && !*has_place, "none for wider readings", of);
}

/* A train of 25 m/s that brakes with 1 m/s² at once is covered up to 17.12 m before a fall to 80 km/h, whose EBI is at 7.5
 * km/h more; past the fall that is a target of the readings behind it alone. */
static void look_ahead(Supervisor &supervisor) {
    static const char of[] = "a reading that hasn't come";
    check(supervisor.set_restriction({9, 50000, 60000, 80, 0}) == Status::done, "a restriction", of);
    auto near = supervisor.would_cover({0, 482880, 482880, 482880, 25000, 0, 0});
    check(near && *near, "it would be covered", of);
    near = supervisor.would_cover({0, 482881, 482881, 482881, 25000, 0, 0});
    check(near && !*near, "it wouldn't be covered", of);
    auto past = supervisor.would_cover_up_to({0, 510000, 500000, 510000, 25000, 0, 0});
    check(past && *past, "each past the fall would be covered", of);
    past = supervisor.would_cover_up_to({0, 510000, 499999, 510000, 25000, 0, 0});
    check(past && !*past, "not each would be covered", of);
    check(supervisor.would_cover(TOO_FAST).error() == Status::out_of_range, "one out of its range", of);
    check(supervisor.would_cover_up_to(TOO_FAST).error() == Status::out_of_range, "one out of its range", of);
    check(supervisor.revoke(9) == Status::done, "a revocation", of);
}

/* A supervisor that is moved runs on where it is now; one that is moved over is closed. */
static void move(std::string_view data) {
    static const char of[] = "a supervisor that is moved";
    auto first = Supervisor::open(data), second = Supervisor::open(data);
    unsigned long of_two = held();
    Supervisor moved = std::move(*first);
    check(held() == of_two, "no memory is given back", of);
    check(first->cycle(AT_THE_START).error() == Status::closed, "the old one is closed", of);
    check(moved.cycle(LATER).has_value(), "the new one judges", of);
    moved = std::move(*second);
    check(held() == of_two / 2, "the one that it is moved over is closed", of);
    check(moved.cycle(AT_THE_START).has_value(), "it is the one that was moved", of);
    Supervisor &itself = moved;
    moved = std::move(itself);
    check(moved.cycle(LATER).has_value(), "one that is moved over itself stays", of);
}

/* A change to the same data: what is kept is there after it, and the one before is as it was. */
static void change(std::string_view data) {
    static const char of[] = "a change of data";
    auto before = Supervisor::open(data), next = Supervisor::open(data);
    check(before->set_restriction({7, 0, 1000, 3, 0}) == Status::done, "a restriction", of);
    check(before->cycle(LATER).has_value(), "it judges", of);
    check(next->take_over(*before) == Status::done, "it is taken", of);
    check(next->cycle(AT_THE_START).error() == Status::time_back, "the time is kept", of);
    check(next->set_restriction({7, 0, 1000, 3, 0}) == Status::id_in_use, "the restriction is kept", of);
    check(before->cycle(LATER).has_value(), "the one before judges", of);
    check(next->take_over(*before) == Status::not_fresh, "it is taken once", of);
    Supervisor moved = std::move(*before);
    check(next->take_over(*before) == Status::closed, "one that was moved from is closed", of);
}

/* Data that are refused, and refused memory. */
static void fail(std::string_view data) {
    auto none = Supervisor::open({});
    check(none.error().status == Status::bad_data && none.error().line() == "sdm: bad data: missing version\n",
          "the line is the program's", "no data");
    heap_test_begin(1, ULONG_MAX);
    auto wanting = Supervisor::open(data);
    check(wanting.error().status == Status::no_memory && wanting.error().line().empty(), "it has no line",
          "refused memory");
    heap_test_begin(0, 0);
}

/* Each status has a text of its own, and so have a number that is none and another layout. */
static void tell() {
    for (std::uint32_t one = 0; one <= SDM_NOT_FRESH + 1; one++)
        for (std::uint32_t other = 0; other < one; other++)
            check(sdm_cpp::text(Status(one)) != sdm_cpp::text(Status(other)), "it is its own", "the text of a status");
    check(sdm_cpp::text(Status::other_layout) != sdm_cpp::text(Status(SDM_NOT_FRESH + 1)), "it is its own",
          "the text of another layout");
    check(sdm_cpp::text(SDM_RELEASE) == "release speed monitoring", "it is that of C", "the text of a state");
    check(sdm_cpp::text(SDM_OVERSPEED) == "overspeed", "it is that of C", "the text of a supervision status");
    check(sdm_cpp::text(SDM_PAST_END) == "past the end of authority", "it is that of C", "the text of a rule");
    const auto field = sdm_cpp::field_of(TOO_FAST);
    check(field == SDM_READING_SPEED_MM_S, "it is named", "a field");
    check(sdm_cpp::text(field) == "speed_mm_s of the reading: 0 to 138,888", "it is that of C", "the text of a field");
    check(sdm_cpp::field_of(sdm_cpp::Restriction{1, 0, 1, 100, 2}) == SDM_RESTRICTION_IS_DELAYED, "it is named",
          "a field");
    check(sdm_cpp::field_of(sdm_cpp::Allowance{0, 0, 0}) == SDM_NO_FIELD, "none is named", "a field");
}

static void supervise(std::string_view data) {
    auto supervisor = Supervisor::open(data);
    check(supervisor && held() > 0, "it is there", "a supervisor");
    check(supervisor->cycle(LATER).has_value(), "it judges", "a supervisor");
    refuse(*supervisor);
    take(*supervisor);
    stop(*supervisor);
    look_ahead(*supervisor);
    check(!sdm_cpp::place_mm({0, 0}) && sdm_cpp::place_mm({-7, 1}) == -7, "it is that of C", "a place");
}

int main() {
    struct journey journey;
    if (journey_read(stdin, &journey) != JOURNEY_READ) {
        std::fprintf(stderr, "usage: wrapper_test < INPUT, whose records are plain\n");
        return 64;
    }
    std::string_view data(reinterpret_cast<const char *>(journey.data), journey.data_bytes);
    heap_test_begin(0, 0);
    supervise(data);
    check(held() == 0, "all memory is given back", "supervisors whose names end");
    move(data);
    change(data);
    fail(data);
    check(held() == 0, "all memory is given back", "supervisors whose names end");
    tell();
    journey_free(&journey);
    std::printf("wrapper_test: %u checks, %u failed\n", checks, failures);
    return failures != 0;
}
