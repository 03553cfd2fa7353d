/* sdm.h for C++17 or later: a supervisor that closes itself, and answers that hold what was asked for or say why there
 * is none. All of it stands in this header, over the calls of sdm.h, which says what each call does, its units and its
 * ranges. Nothing here throws or takes memory, and it compiles with -fno-exceptions and -fno-rtti.
 *
 * The duties of docs/FROM-C.md, "What C must keep", that are left to the caller here: 3, and 5 to 9. The namespace
 * isn't named sdm, since that is the handle of sdm.h. */
#ifndef SDM_HPP
#define SDM_HPP

#include "sdm.h"

#include <cstdint>
#include <cstdlib>
#include <optional>
#include <string_view>
#include <utility>
#include <variant>

namespace sdm_cpp {

using Reading = sdm_reading;
using Row = sdm_row;
using Restriction = sdm_restriction;
using Allowance = sdm_allowance;
using Display = struct ::sdm_display; /* the struct, and not the call */
using Causes = struct ::sdm_causes;   /* the struct, and not the call */

/* What a call answers: enum sdm_status. */
enum class Status : std::uint32_t {
    done = SDM_DONE,
    closed = SDM_CLOSED,
    in_use = SDM_IN_USE,
    no_memory = SDM_NO_MEMORY,
    bad_data = SDM_BAD_DATA,
    refused = SDM_REFUSED,
    out_of_range = SDM_OUT_OF_RANGE,
    time_back = SDM_TIME_BACK,
    svl_before_eoa = SDM_SVL_BEFORE_EOA,
    beyond_track = SDM_BEYOND_TRACK,
    bad_speed = SDM_BAD_SPEED,
    bad_trip = SDM_BAD_TRIP,
    full = SDM_FULL,
    id_in_use = SDM_ID_IN_USE,
    bad_places = SDM_BAD_PLACES,
    unknown_id = SDM_UNKNOWN_ID,
    not_fresh = SDM_NOT_FRESH,
    other_layout = UINT32_MAX /* Supervisor::open alone: the library was built for another layout of sdm.h */
};

/* What a status says, for people. */
inline std::string_view text(Status status) noexcept {
    if (status == Status::other_layout)
        return "the library was built for another layout of its header";
    return sdm_status_text(static_cast<std::uint32_t>(status));
}

/* What a state, a supervision status, a rule and a field say, for people. */
inline std::string_view text(sdm_state state) noexcept { return sdm_state_text(state); }
inline std::string_view text(sdm_supervision supervision) noexcept { return sdm_supervision_text(supervision); }
inline std::string_view text(sdm_rule rule) noexcept { return sdm_rule_text(rule); }
inline std::string_view text(sdm_field field) noexcept { return sdm_field_text(field); }

/* The first number of a struct that is outside its range: SDM_NO_FIELD exactly where none is. */
inline sdm_field field_of(const Reading &reading) noexcept { return sdm_field(sdm_reading_field(&reading)); }
inline sdm_field field_of(const Restriction &restriction) noexcept {
    return sdm_field(sdm_restriction_field(&restriction));
}
inline sdm_field field_of(const Allowance &allowance) noexcept { return sdm_field(sdm_allowance_field(&allowance)); }

/* The place in mm, or none. */
inline std::optional<std::int64_t> place_mm(const sdm_place &place) noexcept {
    return place.is_some != 0 ? std::optional<std::int64_t>(place.mm) : std::nullopt;
}

/* What was asked for, or why there is none, by the names of std::expected of C++23. Who asks for the one that isn't
 * there ends the program. */
template <class T, class E> class [[nodiscard]] Expected {
  public:
    Expected(T value) noexcept : either_(std::in_place_index<0>, std::move(value)) {}

    static Expected failed(E error) noexcept { return Expected(std::in_place_index<1>, std::move(error)); }

    bool has_value() const noexcept { return either_.index() == 0; }
    explicit operator bool() const noexcept { return has_value(); }

    T &operator*() &noexcept { return there(std::get_if<0>(&either_)); }
    const T &operator*() const &noexcept { return there(std::get_if<0>(&either_)); }
    T &&operator*() &&noexcept { return std::move(there(std::get_if<0>(&either_))); }
    T *operator->() noexcept { return &**this; }
    const T *operator->() const noexcept { return &**this; }

    const E &error() const noexcept { return there(std::get_if<1>(&either_)); }

  private:
    Expected(std::in_place_index_t<1> place, E error) noexcept : either_(place, std::move(error)) {}

    template <class V> static V &there(V *value) noexcept {
        if (value == nullptr)
            std::abort();
        return *value;
    }

    std::variant<T, E> either_;
};

/* Why there is no supervisor. */
struct Refusal {
    Status status;
    sdm_line told;

    /* The line that the program sdm writes for data that are refused, with its line feed; empty where the status is
     * another than bad_data and refused. It lives as long as the refusal. */
    std::string_view line() const noexcept {
        return std::string_view(reinterpret_cast<const char *>(told.bytes), told.count);
    }
};

/* A supervisor. It can be moved and not copied; one that was moved from answers closed. One thread at a time uses it. */
class Supervisor {
  public:
    /* Opens a supervisor over a data part in TOML, which is not kept. other_layout, or what sdm_open answers. */
    static Expected<Supervisor, Refusal> open(std::string_view data) noexcept {
        Refusal refusal = {Status::other_layout, {}};
        if (sdm_layout() != SDM_LAYOUT)
            return Expected<Supervisor, Refusal>::failed(refusal);
        Supervisor opened;
        const char *bytes = data.data() != nullptr ? data.data() : "";
        refusal.status = Status(
            sdm_open(&opened.handle_, reinterpret_cast<const std::uint8_t *>(bytes), data.size(), &refusal.told));
        if (refusal.status != Status::done)
            return Expected<Supervisor, Refusal>::failed(refusal);
        return opened;
    }

    Supervisor(const Supervisor &) = delete;
    Supervisor &operator=(const Supervisor &) = delete;

    Supervisor(Supervisor &&other) noexcept : handle_(std::exchange(other.handle_, sdm SDM_INIT)) {}

    Supervisor &operator=(Supervisor &&other) noexcept {
        std::swap(handle_, other.handle_);
        if (this != &other)
            sdm_close(&other.handle_);
        return *this;
    }

    ~Supervisor() { sdm_close(&handle_); }

    /* Judges a reading. */
    Expected<Row, Status> cycle(const Reading &reading) noexcept {
        Row row = {};
        return answered(sdm_cycle(&handle_, &reading, &row), row);
    }

    /* Takes a movement authority to an end, with a supervised location and a release speed (0: none). */
    [[nodiscard]] Status end(std::uint32_t eoa_cm, std::uint32_t svl_cm, std::uint32_t release_kmh) noexcept {
        return Status(sdm_end(&handle_, eoa_cm, svl_cm, release_kmh));
    }

    /* Takes the same with the calculated release speed for a trip at a place. */
    [[nodiscard]] Status end_calculated(std::uint32_t eoa_cm, std::uint32_t svl_cm, std::uint32_t trip_cm) noexcept {
        return Status(sdm_end_calculated(&handle_, eoa_cm, svl_cm, trip_cm));
    }

    /* Takes a movement authority to a limit, which is passed at its speed. */
    [[nodiscard]] Status limit(std::uint32_t loa_cm, std::uint32_t speed_kmh) noexcept {
        return Status(sdm_limit(&handle_, loa_cm, speed_kmh));
    }

    /* Puts a temporary speed restriction into force. */
    [[nodiscard]] Status set_restriction(const Restriction &restriction) noexcept {
        return Status(sdm_restrict(&handle_, &restriction));
    }

    /* Lifts the restriction with an identity. */
    [[nodiscard]] Status revoke(std::uint32_t id) noexcept { return Status(sdm_revoke(&handle_, id)); }

    /* Takes over from the supervisor that ran before, where this one was opened over new data. */
    [[nodiscard]] Status take_over(const Supervisor &before) noexcept {
        return Status(sdm_take_over(&handle_, &before.handle_));
    }

    /* What the driver can be shown of a reading that cycle has taken. */
    Expected<Display, Status> display(const Reading &reading) noexcept {
        Display display = {};
        return answered(sdm_display(&handle_, &reading, &display), display);
    }

    /* Why a reading that cycle has taken triggers, and how each command stands after it. */
    Expected<Causes, Status> causes(const Reading &reading) noexcept {
        Causes causes = {};
        return answered(sdm_causes(&handle_, &reading, &causes), causes);
    }

    /* Whether the row of a reading would be covered if the reading were the next one. */
    Expected<bool, Status> would_cover(const Reading &reading) noexcept {
        std::uint32_t is_covered = 0;
        const std::uint32_t status = sdm_would_cover(&handle_, &reading, &is_covered);
        return answered(status, is_covered == 1);
    }

    /* Whether a reading would cover each target past its min safe front end: then each reading up to it that asks no more
     * is covered, or in release speed monitoring. */
    Expected<bool, Status> would_cover_up_to(const Reading &asked) noexcept {
        std::uint32_t is_covered = 0;
        const std::uint32_t status = sdm_would_cover_up_to(&handle_, &asked, &is_covered);
        return answered(status, is_covered == 1);
    }

    /* Whether the authority in force is an end whose release speed has a trip place, for readings that keep two bounds
     * until the train is tripped. */
    Expected<bool, Status> has_trip_place(std::uint32_t width_cm, std::uint32_t excess_mm_s) noexcept {
        std::uint32_t has_place = 0;
        const std::uint32_t status = sdm_has_trip_place(&handle_, width_cm, excess_mm_s, &has_place);
        return answered(status, has_place == 1);
    }

    /* The first millimetre of the track by which the service brake stops the train of a reading with an allowance, or
     * none. */
    Expected<std::optional<std::int64_t>, Status> clear_of(const Reading &reading,
                                                           const Allowance &allowance) noexcept {
        sdm_place first = {};
        const std::uint32_t status = sdm_clear_of(&handle_, &reading, &allowance, &first);
        return answered(status, place_mm(first));
    }

  private:
    Supervisor() noexcept = default;

    template <class T> static Expected<T, Status> answered(std::uint32_t status, const T &written) noexcept {
        return status == SDM_DONE ? Expected<T, Status>(written) : Expected<T, Status>::failed(Status(status));
    }

    sdm handle_ = SDM_INIT;
};

} // namespace sdm_cpp

#endif
