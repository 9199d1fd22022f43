// The numbers of mbrumzheg.h by types of their own, and Result: what a call answered, or why it was refused. Included by mbrumzheg.hpp.
#ifndef MBRUMZHEG_VALUES_HPP
#define MBRUMZHEG_VALUES_HPP

#include <array>
#include <cstdint>
#include <exception>
#include <optional>
#include <utility>
#include <variant>

#include "mbrumzheg.h"

namespace mbrumzheg {

// Refusals, by the numbers of enum mbrumzheg_refusal.
enum class Refusal : std::uint64_t {
    NoRoom = MBRUMZHEG_NO_ROOM,
    Unsound = MBRUMZHEG_UNSOUND,
    ArmedAlready = MBRUMZHEG_ARMED_ALREADY,
    NotArmed = MBRUMZHEG_NOT_ARMED,
    ProfileLength = MBRUMZHEG_PROFILE_LENGTH,
    Malformed = MBRUMZHEG_MALFORMED,
    OtherFirm = MBRUMZHEG_OTHER_FIRM,
    OutOfRange = MBRUMZHEG_OUT_OF_RANGE,
    LevelClash = MBRUMZHEG_LEVEL_CLASH,
    UnitClash = MBRUMZHEG_UNIT_CLASH,
    TooMany = MBRUMZHEG_TOO_MANY,
    BadTime = MBRUMZHEG_BAD_TIME,
    Unknown = MBRUMZHEG_UNKNOWN,
    BadAmount = MBRUMZHEG_BAD_AMOUNT,
    LogFull = MBRUMZHEG_LOG_FULL,
    FaultyRecord = MBRUMZHEG_FAULTY_RECORD,
    RegisterFull = MBRUMZHEG_REGISTER_FULL,
    IdentityClash = MBRUMZHEG_IDENTITY_CLASH,
    OverReported = MBRUMZHEG_OVER_REPORTED,
    Unfit = MBRUMZHEG_UNFIT,
    AccountFull = MBRUMZHEG_ACCOUNT_FULL,
};

// What a refusal means: a sentence without its first capital and full stop.
inline const char* sentence(Refusal refusal) noexcept { return mbrumzheg_refusal_text(static_cast<std::uint64_t>(refusal)); }

enum class Verdict : std::uint64_t { Free = MBRUMZHEG_FREE, FirmLocked = MBRUMZHEG_FIRM_LOCKED, RootLocked = MBRUMZHEG_ROOT_LOCKED };

// What an order resets before it is judged; T, E and TE lift the locks of its root, of the firm and of both, and forget nothing that was counted.
enum class Reset : std::uint64_t {
    None = MBRUMZHEG_RESET_NONE,
    Symbol = MBRUMZHEG_RESET_SYMBOL,
    Firm = MBRUMZHEG_RESET_FIRM,
    Both = MBRUMZHEG_RESET_BOTH,
    T = MBRUMZHEG_RESET_T,
    E = MBRUMZHEG_RESET_E,
    TE = MBRUMZHEG_RESET_TE,
};

// The units of a root: calls or puts, of the front two months or of the trailing months behind them.
enum class UnitOfRoot : std::uint64_t {
    CallsFront = MBRUMZHEG_CALLS_FRONT,
    CallsTrailing = MBRUMZHEG_CALLS_TRAILING,
    PutsFront = MBRUMZHEG_PUTS_FRONT,
    PutsTrailing = MBRUMZHEG_PUTS_TRAILING,
};

// A time of the day in milliseconds, as calls take it; the microseconds beyond them, 0 to 999, stand in records alone.
struct Time {
    std::uint64_t ms;
    std::uint64_t micros = 0;
    // The time of so many microseconds of the day, and how many it has.
    static constexpr Time from_us(std::uint64_t us) noexcept { return {us / 1000, us % 1000}; }
    constexpr std::uint64_t us() const noexcept { return ms * 1000 + micros; }
};

// Numbers by what they are; each is judged by the call, and mbrumzheg.h has the ranges.
struct Root { std::uint64_t number; };
struct Premium { std::uint64_t ten_thousandths; };
struct Contracts { std::uint64_t count; };
struct Identity { std::uint64_t number; };
struct Reports { std::uint64_t count; };

// What an event is answered; the grant is above 0, and something trips, for offers and reports alone.
struct Answer { Verdict verdict; std::uint64_t grant; bool root_trip; bool firm_trip; };

// How many roots are tripped, locked by the user, locked at all; the lowest locked one, MBRUMZHEG_NO_ROOT if none.
struct Status { std::uint64_t tripped; std::uint64_t locked_by_user; std::uint64_t locked; std::uint64_t lowest_locked; };

// The types of rules, by the numbers of enum mbrumzheg_rule_type.
enum class RuleType : std::uint64_t {
    RateNtnl = MBRUMZHEG_RATE_NTNL,
    RateVol = MBRUMZHEG_RATE_VOL,
    RateCount = MBRUMZHEG_RATE_COUNT,
    AbsNtnl = MBRUMZHEG_ABS_NTNL,
    AbsVol = MBRUMZHEG_ABS_VOL,
    AbsCount = MBRUMZHEG_ABS_COUNT,
};

// A rule of the profile: its limit in whole dollars, contracts or executions; its window in milliseconds, none for an absolute rule; its root, none
// for a firm rule; its unit, none where it covers all four, each of which then counts for itself.
struct Rule {
    RuleType type;
    std::uint64_t limit;
    std::optional<std::uint64_t> window;
    std::optional<Root> root;
    std::optional<UnitOfRoot> unit;
};

// Room that every profile written back fits into.
using ProfileRoom = std::array<char, MBRUMZHEG_PROFILE_MOST>;

// What a call answered, or why it was refused, for Arm with the first faulty line of the profile, from 1, or 0.
template <class T>
class [[nodiscard]] Result {
public:
    Result(T answer) : kept_(std::in_place_type<T>, std::move(answer)) {}
    Result(Refusal refusal, std::uint64_t line = 0) noexcept : kept_(std::in_place_type<Refusal>, refusal), line_(line) {}

    // Whether the call was not refused. It says nothing of the verdict, so a Result is no condition by itself; passes() asks both.
    bool accepted() const noexcept { return std::holds_alternative<T>(kept_); }

    // The answer; to ask for that of a refused call ends the program.
    T& operator*() & noexcept { return *kept<T>(kept_); }
    const T& operator*() const& noexcept { return *kept<T>(kept_); }
    T&& operator*() && noexcept { return std::move(*kept<T>(kept_)); }
    T* operator->() noexcept { return kept<T>(kept_); }
    const T* operator->() const noexcept { return kept<T>(kept_); }

    // The refusal; to ask for that of an accepted call ends the program.
    Refusal refusal() const noexcept { return *kept<Refusal>(kept_); }
    std::uint64_t line() const noexcept { return line_; }

private:
    template <class Which, class Kept>
    static auto* kept(Kept& either) noexcept {
        auto* found = std::get_if<Which>(&either);
        if (found == nullptr) std::terminate();
        return found;
    }

    std::variant<Refusal, T> kept_;
    std::uint64_t line_ = 0;
};

namespace detail {

template <class T>
Result<T> refused(enum mbrumzheg_refusal refusal, std::uint64_t line = 0) { return {static_cast<Refusal>(refusal), line}; }

}  // namespace detail

// Whether an order or an offer may pass: it was not refused, and nothing is locked.
inline bool passes(const Result<Verdict>& result) noexcept { return result.accepted() && *result == Verdict::Free; }
inline bool passes(const Result<Answer>& result) noexcept { return result.accepted() && result->verdict == Verdict::Free; }

}  // namespace mbrumzheg

#endif
