// The events of a day, and their records. Included by mbrumzheg.hpp.
#ifndef MBRUMZHEG_EVENTS_HPP
#define MBRUMZHEG_EVENTS_HPP

#include <array>
#include <cstddef>
#include <cstdint>
#include <variant>

#include "mbrumzheg_values.hpp"

namespace mbrumzheg {

// The events of a day: those at home, and an order sent to an away market, what is reported of it, and its closing.
struct Order { Time time; Root root; Reset reset; };
struct Offer { Time time; Root root; UnitOfRoot unit; Premium premium; Contracts contracts; };
struct RootLockout { Time time; Root root; };
struct FirmLockout { Time time; };
struct Sending { Time time; Root root; UnitOfRoot unit; Premium premium; Contracts contracts; Identity identity; Reports reports; };
struct Report { Time time; Identity identity; Contracts contracts; };
struct Closing { Time time; Identity identity; };
using Event = std::variant<Order, Offer, RootLockout, FirmLockout, Sending, Report, Closing>;

// An event's record, and one of the old form.
using Record16 = std::array<std::uint8_t, MBRUMZHEG_RECORD16_BYTES>;
using Record = std::array<std::uint8_t, MBRUMZHEG_RECORD_BYTES>;

namespace detail {

// An event by its numbers.
inline mbrumzheg_event numbers(const Event& event) noexcept {
    struct {
        mbrumzheg_event operator()(const Order& o) const {
            return {MBRUMZHEG_KIND_ORDER, o.time.ms, o.root.number, 0, 0, 0, static_cast<std::uint64_t>(o.reset), 0, 0, 0, o.time.micros};
        }
        mbrumzheg_event operator()(const Offer& o) const {
            const auto unit = static_cast<std::uint64_t>(o.unit);
            return {MBRUMZHEG_KIND_OFFER, o.time.ms, o.root.number, unit, o.premium.ten_thousandths, o.contracts.count, 0, 0, 0, 0, o.time.micros};
        }
        mbrumzheg_event operator()(const RootLockout& l) const {
            return {MBRUMZHEG_KIND_LOCKOUT, l.time.ms, l.root.number, 0, 0, 0, 0, MBRUMZHEG_LEVEL_ROOT, 0, 0, l.time.micros};
        }
        mbrumzheg_event operator()(const FirmLockout& l) const {
            return {MBRUMZHEG_KIND_LOCKOUT, l.time.ms, 0, 0, 0, 0, 0, MBRUMZHEG_LEVEL_FIRM, 0, 0, l.time.micros};
        }
        mbrumzheg_event operator()(const Sending& s) const {
            return {MBRUMZHEG_KIND_SEND, s.time.ms, s.root.number, static_cast<std::uint64_t>(s.unit), s.premium.ten_thousandths, s.contracts.count, 0, 0,
                    s.identity.number, s.reports.count, s.time.micros};
        }
        mbrumzheg_event operator()(const Report& r) const {
            return {MBRUMZHEG_KIND_REPORT, r.time.ms, 0, 0, 0, r.contracts.count, 0, 0, r.identity.number, 0, r.time.micros};
        }
        mbrumzheg_event operator()(const Closing& c) const {
            return {MBRUMZHEG_KIND_CLOSE, c.time.ms, 0, 0, 0, 0, 0, 0, c.identity.number, 0, c.time.micros};
        }
    } of;
    return std::visit(of, event);
}

// The event that a record was read as.
inline Result<Event> event(const mbrumzheg_reading& reading) {
    const auto& e = reading.event;
    const Time time{e.time, e.micros};
    const auto unit = static_cast<UnitOfRoot>(e.unit);
    if (reading.refusal != MBRUMZHEG_ACCEPTED) return refused<Event>(reading.refusal);
    switch (e.kind) {
    case MBRUMZHEG_KIND_ORDER: return Event{Order{time, {e.root}, static_cast<Reset>(e.reset)}};
    case MBRUMZHEG_KIND_OFFER: return Event{Offer{time, {e.root}, unit, {e.premium}, {e.contracts}}};
    case MBRUMZHEG_KIND_SEND: return Event{Sending{time, {e.root}, unit, {e.premium}, {e.contracts}, {e.identity}, {e.reports}}};
    case MBRUMZHEG_KIND_REPORT: return Event{Report{time, {e.identity}, {e.contracts}}};
    case MBRUMZHEG_KIND_CLOSE: return Event{Closing{time, {e.identity}}};
    default: return e.level == MBRUMZHEG_LEVEL_ROOT ? Event{RootLockout{time, {e.root}}} : Event{FirmLockout{time}};
    }
}

// The bytes of a record that was written, in either form.
template <class Bytes, class Written>
Result<Bytes> bytes(const Written& written) {
    if (written.refusal != MBRUMZHEG_ACCEPTED) return refused<Bytes>(written.refusal);
    Bytes record{};
    for (std::size_t i = 0; i < record.size(); i++) record[i] = written.bytes[i];
    return record;
}

}  // namespace detail

// The event of a record, its time in microseconds; FaultyRecord for any bytes that no event has.
inline Result<Event> read_record16(const Record16& bytes) { return detail::event(mbrumzheg_try_read_record16(bytes.data(), bytes.size())); }

// The record of an event; FaultyRecord if one of its numbers is out of range.
inline Result<Record16> write_record16(const Event& event) { return detail::bytes<Record16>(mbrumzheg_try_write_record16(detail::numbers(event))); }

// The event of a record of the old form; FaultyRecord for any bytes that no event has.
inline Result<Event> read_record(const Record& bytes) { return detail::event(mbrumzheg_try_read_record(bytes.data(), bytes.size())); }

// The record of an event in the old form; FaultyRecord if one of its numbers is out of range, or 12 bytes have no place for it: a reset above Both,
// microseconds beyond the millisecond, and what is sent away, reported and closed.
inline Result<Record> write_record(const Event& event) { return detail::bytes<Record>(mbrumzheg_try_write_record(detail::numbers(event))); }

// A record of the old form as one with microseconds; FaultyRecord for any bytes that no event has.
inline Result<Record16> widen(const Record& bytes) { return detail::bytes<Record16>(mbrumzheg_try_widen(bytes.data(), bytes.size())); }

// A record as one of the old form; FaultyRecord for any bytes that no event has, Unfit for an event that the old form has no record for.
inline Result<Record> narrow(const Record16& bytes) { return detail::bytes<Record>(mbrumzheg_try_narrow(bytes.data(), bytes.size())); }

}  // namespace mbrumzheg

#endif
