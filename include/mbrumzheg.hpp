// Mbrumzheg for C++17 and later: a risk unit as a class that can be moved and not copied, over the calls of mbrumzheg.h.
//
// A Unit exists only once a profile has armed it, or saved memory has passed the library's own check, so no order can pass a unit without rules.
// A unit that was moved from refuses every call with NoRoom. A call's answer is a Result, which is either the answer or the refusal; to take the
// answer of a refused call ends the program. Nothing here throws; making a Unit takes memory for its state, profile() for its text, and no
// other call takes any.
#ifndef MBRUMZHEG_HPP
#define MBRUMZHEG_HPP

#include <cstddef>
#include <cstdint>
#include <optional>
#include <string>
#include <string_view>
#include <utility>
#include <vector>

#include "mbrumzheg_account.hpp"
#include "mbrumzheg_events.hpp"
#include "mbrumzheg_values.hpp"

namespace mbrumzheg {

// The text of a rejection, for verdicts that do not pass.
class Text {
public:
    explicit Text(Verdict verdict) noexcept : wording_(mbrumzheg_try_text(static_cast<std::uint64_t>(verdict))) {}
    std::string_view view() const noexcept { return {wording_.text, wording_.length}; }

private:
    mbrumzheg_wording wording_;
};

// The name of a root: 1 to 6 capitals or digits.
class Name {
public:
    explicit Name(const mbrumzheg_name& name) noexcept : name_(name) {}
    std::string_view view() const noexcept { return {name_.text, name_.length}; }

private:
    mbrumzheg_name name_;
};

namespace detail {

inline Result<Answer> answer(const mbrumzheg_judged& judged) {
    if (judged.refusal != MBRUMZHEG_ACCEPTED) return refused<Answer>(judged.refusal);
    return Answer{static_cast<Verdict>(judged.verdict), judged.grant, judged.root_trip, judged.firm_trip};
}

inline Result<Verdict> verdict(const mbrumzheg_judged& judged) {
    if (judged.refusal != MBRUMZHEG_ACCEPTED) return refused<Verdict>(judged.refusal);
    return static_cast<Verdict>(judged.verdict);
}

// A rule by its numbers, where 0 is no window, 64 no root and 4 no unit.
inline Rule rule(const mbrumzheg_rule_terms& terms) noexcept {
    Rule rule{static_cast<RuleType>(terms.type), terms.limit, std::nullopt, std::nullopt, std::nullopt};
    if (terms.window != 0) rule.window = terms.window;
    if (terms.root != MBRUMZHEG_NO_ROOT) rule.root = Root{terms.root};
    if (terms.unit != MBRUMZHEG_ALL_UNITS) rule.unit = static_cast<UnitOfRoot>(terms.unit);
    return rule;
}

}  // namespace detail

// Lent memory that one unit stands on; whoever lends it keeps it alive, and writes nothing there meanwhile.
class Lent {
public:
    Lent(std::uint64_t* numbers, std::size_t size) noexcept : numbers_(numbers), size_(size) {}
    Lent(Lent&& other) noexcept : numbers_(std::exchange(other.numbers_, nullptr)), size_(std::exchange(other.size_, 0)) {}
    Lent& operator=(Lent&& other) noexcept {
        numbers_ = std::exchange(other.numbers_, nullptr);
        size_ = std::exchange(other.size_, 0);
        return *this;
    }
    std::uint64_t* data() noexcept { return numbers_; }
    const std::uint64_t* data() const noexcept { return numbers_; }
    std::size_t size() const noexcept { return size_; }

private:
    std::uint64_t* numbers_;
    std::size_t size_;
};

// An armed risk unit on memory of its own (std::vector) or on lent memory (Lent).
template <class Memory>
class UnitOn {
public:
    UnitOn(UnitOn&&) noexcept = default;
    UnitOn& operator=(UnitOn&&) noexcept = default;
    UnitOn(const UnitOn&) = delete;
    UnitOn& operator=(const UnitOn&) = delete;

    // Arms memory from a profile; ArmedAlready unless the memory is zeros or was cleared.
    static Result<UnitOn> arm(Memory memory, std::string_view profile) {
        UnitOn unit(std::move(memory));
        const char* text = profile.data() == nullptr ? "" : profile.data();
        const auto armed = mbrumzheg_try_arm(unit.numbers(), unit.size(), text, profile.size());
        if (armed.refusal != MBRUMZHEG_ACCEPTED) return detail::refused<UnitOn>(armed.refusal, armed.line);
        return unit;
    }

    // Memory with the state in it set to zeros, whatever it held; NoRoom alone if it is short.
    static Result<Memory> cleared(Memory memory) {
        UnitOn unit(std::move(memory));
        const auto refusal = mbrumzheg_try_clear(unit.numbers(), unit.size());
        if (refusal != MBRUMZHEG_ACCEPTED) return detail::refused<Memory>(refusal);
        return std::move(unit.memory_);
    }

    // Takes memory that holds a state, as memory() had it, once it has passed the library's check of the whole state.
    static Result<UnitOn> adopt(Memory memory) {
        UnitOn unit(std::move(memory));
        const auto standing = mbrumzheg_try_status(unit.numbers(), unit.size());
        if (standing.refusal != MBRUMZHEG_ACCEPTED) return detail::refused<UnitOn>(standing.refusal);
        return unit;
    }

    Result<Verdict> order(const Order& o) {
        return detail::verdict(mbrumzheg_try_order(numbers(), size(), o.time.ms, o.root.number, static_cast<std::uint64_t>(o.reset)));
    }
    Result<Verdict> lock(const RootLockout& l) {
        return detail::verdict(mbrumzheg_try_lockout(numbers(), size(), l.time.ms, MBRUMZHEG_LEVEL_ROOT, l.root.number));
    }
    Result<Verdict> lock(const FirmLockout& l) {
        return detail::verdict(mbrumzheg_try_lockout(numbers(), size(), l.time.ms, MBRUMZHEG_LEVEL_FIRM, 0));
    }
    // An offered fill, cut to what the rules allow.
    Result<Answer> offer(const Offer& o) { return answer(o); }
    // An order sent away, which gets the verdict of an order without a reset.
    Result<Verdict> send(const Sending& s) { return detail::verdict(mbrumzheg_try_event(numbers(), size(), detail::numbers(s))); }
    // A fill of an order sent away, counted as it was filled; the grant is its contracts.
    Result<Answer> report(const Report& r) { return answer(r); }
    // Closes an order sent away: its identity is free again, and so are the places kept for reports that did not come.
    Result<Verdict> close(const Closing& c) { return detail::verdict(mbrumzheg_try_event(numbers(), size(), detail::numbers(c))); }
    // Any event.
    Result<Answer> answer(const Event& event) { return detail::answer(mbrumzheg_try_event(numbers(), size(), detail::numbers(event))); }

    // The same calls, which also count what was not refused in an account; AccountFull, and nothing is applied, where a figure would pass 10^18.
    Result<Verdict> accounted_order(Account& account, const Order& o) { return detail::verdict(accounted(account, o)); }
    Result<Verdict> accounted_lockout(Account& account, const RootLockout& l) { return detail::verdict(accounted(account, l)); }
    Result<Verdict> accounted_lockout(Account& account, const FirmLockout& l) { return detail::verdict(accounted(account, l)); }
    Result<Answer> accounted_offer(Account& account, const Offer& o) { return accounted_answer(account, o); }
    Result<Verdict> accounted_send(Account& account, const Sending& s) { return detail::verdict(accounted(account, s)); }
    Result<Answer> accounted_report(Account& account, const Report& r) { return accounted_answer(account, r); }
    Result<Verdict> accounted_close(Account& account, const Closing& c) { return detail::verdict(accounted(account, c)); }
    Result<Answer> accounted_answer(Account& account, const Event& event) { return detail::answer(accounted(account, event)); }

    // What remains of the limit of a rule, numbered from 0 by line, on a unit at a time; the clock does not move. Unknown for a unit that is not the
    // rule's: for a rule of one unit any but its own, for a firm rule any but CallsFront.
    Result<std::uint64_t> remaining(Time time, std::uint64_t rule, UnitOfRoot unit) const {
        const auto remains = mbrumzheg_try_remaining(numbers(), size(), time.ms, rule, static_cast<std::uint64_t>(unit));
        if (remains.refusal != MBRUMZHEG_ACCEPTED) return detail::refused<std::uint64_t>(remains.refusal);
        return remains.amount;
    }
    Result<Status> status() const {
        const auto s = mbrumzheg_try_status(numbers(), size());
        if (s.refusal != MBRUMZHEG_ACCEPTED) return detail::refused<Status>(s.refusal);
        return Status{s.tripped, s.locked_by_user, s.locked, s.lowest_locked};
    }

    // The root that has a name; Unknown for one that the profile does not have.
    Result<Root> root_named(std::string_view name) const {
        const auto found = mbrumzheg_try_root_named(numbers(), size(), name.data() == nullptr ? "" : name.data(), name.size());
        if (found.refusal != MBRUMZHEG_ACCEPTED) return detail::refused<Root>(found.refusal);
        return Root{found.root};
    }
    // The name of a root.
    Result<Name> root_name(Root root) const {
        const auto name = mbrumzheg_try_root_name(numbers(), size(), root.number);
        if (name.refusal != MBRUMZHEG_ACCEPTED) return detail::refused<Name>(name.refusal);
        return Name(name);
    }
    // A rule, numbered from 0 by line.
    Result<Rule> rule(std::uint64_t number) const {
        const auto terms = mbrumzheg_try_rule(numbers(), size(), number);
        if (terms.refusal != MBRUMZHEG_ACCEPTED) return detail::refused<Rule>(terms.refusal);
        return detail::rule(terms);
    }

    // The rules that are active as a profile's text, which arms another unit with the same rules, roots and numbers.
    Result<std::string> profile() const {
        std::string room(MBRUMZHEG_PROFILE_MOST, '\0');
        const auto written = mbrumzheg_try_profile(numbers(), size(), room.data(), room.size());
        if (written.refusal != MBRUMZHEG_ACCEPTED) return detail::refused<std::string>(written.refusal);
        room.resize(written.size);
        return room;
    }
    // The same into lent room, which keeps the text.
    Result<std::string_view> profile(ProfileRoom& room) const {
        const auto written = mbrumzheg_try_profile(numbers(), size(), room.data(), room.size());
        if (written.refusal != MBRUMZHEG_ACCEPTED) return detail::refused<std::string_view>(written.refusal);
        return std::string_view(room.data(), written.size);
    }

    // The numbers that the state is kept in, to be saved and adopted again.
    const Memory& memory() const& noexcept { return memory_; }
    // Gives the memory back, state and all.
    Memory memory() && noexcept { return std::move(memory_); }

private:
    explicit UnitOn(Memory memory) noexcept : memory_(std::move(memory)) {}
    mbrumzheg_judged accounted(Account& account, const Event& event) {
        return mbrumzheg_try_accounted_event(numbers(), size(), account.data(), Account::size(), detail::numbers(event));
    }
    // What is lent to a call is never null, also where nothing is lent.
    std::uint64_t* numbers() noexcept { return memory_.data() == nullptr ? &nothing_ : memory_.data(); }
    const std::uint64_t* numbers() const noexcept { return memory_.data() == nullptr ? &nothing_ : memory_.data(); }
    std::size_t size() const noexcept { return memory_.data() == nullptr ? 0 : memory_.size(); }

    Memory memory_;
    std::uint64_t nothing_ = 0;
};

// A unit on memory of its own, and one on lent memory.
using Unit = UnitOn<std::vector<std::uint64_t>>;
using LentUnit = UnitOn<Lent>;

// A unit on memory of its own, armed from a profile.
inline Result<Unit> arm(std::string_view profile) { return Unit::arm(std::vector<std::uint64_t>(MBRUMZHEG_SIZE), profile); }

}  // namespace mbrumzheg

#endif
