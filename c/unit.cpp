// Tries every call of mbrumzheg.hpp: ends with 0 if each answer is as it should be, else with 1 and the line that was not.
#include <cstdio>
#include <cstdlib>
#include <type_traits>

#include "mbrumzheg.hpp"

using namespace mbrumzheg;

static_assert(std::is_move_constructible_v<Unit> && std::is_move_assignable_v<Unit>, "a unit can be moved");
static_assert(!std::is_copy_constructible_v<Unit> && !std::is_copy_assignable_v<Unit>, "and not copied");
static_assert(!std::is_copy_constructible_v<LentUnit> && std::is_nothrow_move_constructible_v<LentUnit>, "on lent memory too");
static_assert(!std::is_default_constructible_v<Unit>, "there is no unit without rules");
static_assert(!std::is_constructible_v<bool, Result<Verdict>>, "that a call was accepted is not that its order passes");

static void expect(bool holds, int line) {
    if (holds) return;
    std::fprintf(stderr, "c/unit.cpp:%d is not so\n", line);
    std::exit(1);
}
#define EXPECT(...) expect((__VA_ARGS__), __LINE__)

// An offer at $7 on root 0, calls of the front months.
static Offer at(std::uint64_t ms, std::uint64_t contracts) {
    return {Time{ms}, Root{0}, UnitOfRoot::CallsFront, Premium{70000}, Contracts{contracts}};
}

static void cuts_and_locks() {
    auto unit = arm("ABCD,abs_vol,XYZ,1000,0");
    EXPECT(unit.accepted() && unit.line() == 0);
    const auto first = unit->offer(at(0, 950));
    EXPECT(first.accepted() && passes(first) && first->verdict == Verdict::Free && first->grant == 950 && !first->root_trip && !first->firm_trip);
    EXPECT(*unit->remaining(Time{0}, 0, UnitOfRoot::CallsFront) == 50 && *unit->remaining(Time{0}, 0, UnitOfRoot::PutsFront) == 1000);
    EXPECT(unit->remaining(Time{0}, 1, UnitOfRoot::CallsFront).refusal() == Refusal::Unknown);
    const auto second = unit->offer(at(10, 200));
    EXPECT(second.accepted() && second->grant == 50 && second->root_trip && !second->firm_trip);
    const auto verdict = unit->order({Time{20}, Root{0}, Reset::None});
    EXPECT(verdict.accepted() && !passes(verdict) && Text(*verdict).view() == "s: RiskMgmtSymLevel");
    const auto status = unit->status();
    EXPECT(status.accepted() && status->tripped == 1 && status->locked_by_user == 0 && status->locked == 1 && status->lowest_locked == 0);
    EXPECT(*unit->order({Time{30}, Root{0}, Reset::Symbol}) == Verdict::Free);
    EXPECT(unit->offer(at(29, 1)).refusal() == Refusal::BadTime && !passes(unit->offer(at(29, 1))));
    EXPECT(passes(unit->order({Time{30}, Root{0}, Reset::None})) && !passes(unit->order({Time{29}, Root{0}, Reset::None})));
    EXPECT(unit->lock(FirmLockout{Time{40}}).accepted() && Text(*unit->order({Time{40}, Root{0}, Reset::None})).view() == "f: RiskMgmtFirmLevel");
    EXPECT(*unit->lock(RootLockout{Time{40}, Root{0}}) == Verdict::Free && unit->status()->locked_by_user == 1);
    EXPECT(*unit->order({Time{40}, Root{0}, Reset::Both}) == Verdict::Free && unit->status()->lowest_locked == MBRUMZHEG_NO_ROOT);
}

static void locks_are_lifted_without_forgetting() {
    auto unit = arm("ABCD,abs_vol,XYZ,10\nABCD,abs_vol,,10,,T");
    const auto full = unit->offer(at(0, 10));
    EXPECT(full->root_trip && full->firm_trip && unit->lock(RootLockout{Time{0}, Root{0}}).accepted());
    const auto saved = unit->memory();
    EXPECT(*unit->order({Time{0}, Root{0}, Reset::T}) == Verdict::FirmLocked && unit->status()->locked == 0);
    EXPECT(*unit->order({Time{0}, Root{0}, Reset::E}) == Verdict::Free);
    EXPECT(*unit->remaining(Time{0}, 0, UnitOfRoot::CallsFront) == 0 && *unit->remaining(Time{0}, 1, UnitOfRoot::CallsFront) == 0);
    const auto again = unit->offer(at(0, 1));
    EXPECT(again->verdict == Verdict::Free && again->grant == 0 && again->root_trip && again->firm_trip);
    auto other = Unit::adopt(saved);
    EXPECT(*other->order({Time{0}, Root{0}, Reset::E}) == Verdict::RootLocked && *other->order({Time{0}, Root{0}, Reset::TE}) == Verdict::Free);
    EXPECT(other->order({Time{0}, Root{0}, static_cast<Reset>(7)}).refusal() == Refusal::Unknown);
    for (const Reset reset : {Reset::T, Reset::E, Reset::TE}) EXPECT(write_record(Order{Time{0}, Root{0}, reset}).refusal() == Refusal::FaultyRecord);
}

static void fills_come_back_from_away_markets() {
    auto unit = arm("ABCD,abs_vol,XYZ,100\nABCD,rate_vol,,1000,1000,T");
    const auto sending = [](std::uint64_t identity, std::uint64_t reports) {
        return Sending{Time{0}, Root{0}, UnitOfRoot::CallsFront, Premium{70000}, Contracts{150}, Identity{identity}, Reports{reports}};
    };
    EXPECT(*unit->send(sending(7, 2)) == Verdict::Free && unit->send(sending(7, 2)).refusal() == Refusal::IdentityClash);
    EXPECT(unit->send(sending(65536, 2)).refusal() == Refusal::Unknown && unit->send(sending(8, 17)).refusal() == Refusal::BadAmount);
    const auto back = unit->report({Time{0}, Identity{7}, Contracts{120}});
    EXPECT(back->verdict == Verdict::Free && back->grant == 120 && back->root_trip && !back->firm_trip);
    EXPECT(*unit->send(sending(8, 1)) == Verdict::RootLocked && unit->report({Time{0}, Identity{8}, Contracts{1}}).refusal() == Refusal::IdentityClash);
    EXPECT(unit->report({Time{0}, Identity{7}, Contracts{31}}).refusal() == Refusal::OverReported);
    EXPECT(*unit->order({Time{0}, Root{0}, Reset::Both}) == Verdict::Free && unit->report({Time{0}, Identity{7}, Contracts{30}})->grant == 30);
    EXPECT(*unit->close({Time{0}, Identity{7}}) == Verdict::Free && unit->close({Time{0}, Identity{7}}).refusal() == Refusal::IdentityClash);
    for (std::uint64_t identity = 0; identity < MBRUMZHEG_REGISTER_PLACES; identity++) EXPECT(passes(unit->send(sending(identity, 7))));
    EXPECT(unit->send(sending(64, 1)).refusal() == Refusal::RegisterFull && unit->answer(Closing{Time{0}, Identity{63}}).accepted());
    EXPECT(unit->send(sending(64, 16)).accepted() && *unit->remaining(Time{0}, 0, UnitOfRoot::CallsFront) == 70);
    for (const Event& event : {Event{sending(1, 1)}, Event{Report{Time{0}, Identity{0}, Contracts{1}}}, Event{Closing{Time{0}, Identity{0}}}})
        EXPECT(write_record(event).refusal() == Refusal::FaultyRecord);
}

static void each_unit_counts_for_itself() {
    auto unit = arm("ABCD,abs_vol,XYZ,100\nABCD,abs_vol,XYZ,90,,,P,T\nABCD,abs_vol,,500,,T");
    const auto offered = [&unit](UnitOfRoot of, std::uint64_t contracts) {
        return *unit->offer({Time{0}, Root{0}, of, Premium{10000}, Contracts{contracts}});
    };
    const auto left = [&unit](std::uint64_t rule, UnitOfRoot of) { return unit->remaining(Time{0}, rule, of); };
    EXPECT(offered(UnitOfRoot::CallsFront, 60).grant == 60 && !offered(UnitOfRoot::PutsTrailing, 60).root_trip);
    EXPECT(*left(0, UnitOfRoot::CallsFront) == 40 && *left(0, UnitOfRoot::CallsTrailing) == 100 && *left(0, UnitOfRoot::PutsTrailing) == 40);
    EXPECT(*left(1, UnitOfRoot::PutsTrailing) == 30 && left(1, UnitOfRoot::CallsFront).refusal() == Refusal::Unknown);
    EXPECT(*left(2, UnitOfRoot::CallsFront) == 380 && left(2, UnitOfRoot::PutsTrailing).refusal() == Refusal::Unknown);
    EXPECT(offered(UnitOfRoot::CallsFront, 40).root_trip && offered(UnitOfRoot::PutsFront, 1).verdict == Verdict::RootLocked);
    EXPECT(*unit->order({Time{0}, Root{0}, Reset::Symbol}) == Verdict::Free);
    EXPECT(*left(0, UnitOfRoot::CallsFront) == 100 && *left(0, UnitOfRoot::PutsTrailing) == 100 && *left(2, UnitOfRoot::CallsFront) == 340);
}

static void names_and_rules_are_known() {
    const auto unit = arm("ABCD,rate_ntnl,Q,1000,0,,P,T\nABCD,abs_count,XYZ123,7\nABCD,abs_vol,,5,,T");
    EXPECT(unit->root_named("XYZ123")->number == 1 && unit->root_name(Root{1})->view() == "XYZ123" && unit->root_name(Root{0})->view() == "Q");
    EXPECT(unit->root_named("XYZ").refusal() == Refusal::Unknown && unit->root_named({}).refusal() == Refusal::Unknown);
    EXPECT(unit->root_name(Root{2}).refusal() == Refusal::Unknown && unit->rule(3).refusal() == Refusal::Unknown);
    const auto rate = unit->rule(0);
    EXPECT(rate->type == RuleType::RateNtnl && rate->limit == 1000 && rate->window == 100 && rate->root->number == 0);
    EXPECT(rate->unit == UnitOfRoot::PutsTrailing);
    const auto whole = unit->rule(1);
    EXPECT(whole->type == RuleType::AbsCount && whole->limit == 7 && !whole->window && whole->root->number == 1 && !whole->unit);
    const auto firm = unit->rule(2);
    EXPECT(firm->type == RuleType::AbsVol && firm->limit == 5 && !firm->window && !firm->root && !firm->unit);
}

static void the_rules_are_written_back() {
    const auto unit = arm("ABCD,rate_ntnl,Q,001000,0,,P,T\nABCD,abs_count,XYZ123,7,5,\nABCD,abs_vol,,5,,T");
    const std::string_view text = "ABCD,rate_ntnl,Q,1000,100,,P,T\nABCD,abs_count,XYZ123,7\nABCD,abs_vol,,5,,T\n";
    ProfileRoom room{};
    EXPECT(*unit->profile() == text && *unit->profile(room) == text && room[text.size()] == 0);
    const auto again = arm(*unit->profile());
    EXPECT(again->memory() == unit->memory() && *again->profile() == text);
}

static void refusals_say_why() {
    const auto refused = arm("ABCD,abs_vol,XYZ,1000\nABCD,abs_vol,XYZ,0\n");
    EXPECT(!refused.accepted() && refused.refusal() == Refusal::OutOfRange && refused.line() == 2);
    EXPECT(std::string_view(sentence(refused.refusal())) == "the line's limit or time limit is out of range");
    EXPECT(arm({}).refusal() == Refusal::ProfileLength);
}

static void a_unit_moves() {
    auto unit = arm("ABCD,abs_vol,XYZ,1000");
    Unit moved = *std::move(unit);
    EXPECT(moved.offer(at(0, 1))->grant == 1);
    EXPECT(unit->offer(at(0, 1)).refusal() == Refusal::NoRoom && unit->status().refusal() == Refusal::NoRoom && unit->profile().refusal() == Refusal::NoRoom);
    auto adopted = Unit::adopt(moved.memory());
    EXPECT(adopted.accepted() && *adopted->remaining(Time{0}, 0, UnitOfRoot::CallsFront) == 999);
    auto saved = std::move(moved).memory();
    saved.back() = 7;
    EXPECT(Unit::adopt(saved).refusal() == Refusal::Unsound);
    EXPECT(Unit::adopt(std::vector<std::uint64_t>(MBRUMZHEG_SIZE)).refusal() == Refusal::NotArmed);
    EXPECT(Unit::adopt({}).refusal() == Refusal::NoRoom);
}

static void a_unit_stands_on_lent_memory() {
    static std::uint64_t room[MBRUMZHEG_SIZE + 1];
    for (auto& number : room) number = 9;
    const auto lent = [] { return Lent(room, MBRUMZHEG_SIZE + 1); };
    EXPECT(LentUnit::arm(lent(), "ABCD,rate_count,,10,1000,T").refusal() == Refusal::ArmedAlready);
    auto unit = LentUnit::arm(*LentUnit::cleared(lent()), "ABCD,rate_count,,10,1000,T");
    EXPECT(unit.accepted() && unit->status().accepted() && room[MBRUMZHEG_SIZE] == 9);
    EXPECT(unit->offer(at(0, 1)).refusal() == Refusal::Unknown);
    EXPECT(LentUnit::cleared(Lent(room, 3)).refusal() == Refusal::NoRoom);
}

static void events_have_records() {
    const Record bytes{0x40, 0, 0, 0x50, 0, 1, 0x11, 0x70, 0, 0x0C, 0x80, 0};
    const auto event = read_record(bytes);
    EXPECT(event.accepted() && std::get<Offer>(*event).time.ms == 10 && std::get<Offer>(*event).contracts.count == 200);
    EXPECT(*write_record(*event) == bytes);
    auto unit = arm("ABCD,abs_vol,XYZ,1000,0");
    EXPECT(unit->answer(*event)->grant == 200);
    for (const Event& one : {Event{Order{Time{9}, Root{3}, Reset::Both}}, Event{RootLockout{Time{8}, Root{63}}}, Event{FirmLockout{Time{7}}}}) {
        const auto again = read_record(*write_record(one));
        EXPECT(again.accepted() && again->index() == one.index() && *write_record(*again) == *write_record(one));
    }
    EXPECT(write_record(Order{Time{86400000}, Root{0}, Reset::None}).refusal() == Refusal::FaultyRecord);
    EXPECT(read_record(Record{0xFF}).refusal() == Refusal::FaultyRecord);
}

static void records_carry_microseconds() {
    const Time time = Time::from_us(34200000250);
    EXPECT(time.ms == 34200000 && time.micros == 250 && time.us() == 34200000250 && Time{7}.us() == 7000);
    const Sending sending{time, Root{5}, UnitOfRoot::PutsFront, Premium{70000}, Contracts{20}, Identity{65535}, Reports{16}};
    for (const Event& one : {Event{Order{time, Root{63}, Reset::TE}}, Event{Offer{time, Root{0}, UnitOfRoot::CallsFront, Premium{1}, Contracts{1}}},
                             Event{RootLockout{time, Root{63}}}, Event{FirmLockout{time}}, Event{sending}, Event{Report{time, Identity{7}, Contracts{3}}},
                             Event{Closing{time, Identity{7}}}}) {
        const auto again = read_record16(*write_record16(one));
        EXPECT(again.accepted() && again->index() == one.index() && *write_record16(*again) == *write_record16(one));
        EXPECT(narrow(*write_record16(one)).refusal() == Refusal::Unfit && write_record(one).refusal() == Refusal::FaultyRecord);
    }
    const auto sent = read_record16(*write_record16(sending));
    EXPECT(std::get<Sending>(*sent).time.us() == time.us() && std::get<Sending>(*sent).identity.number == 65535);
    EXPECT(std::get<Sending>(*sent).reports.count == 16 && std::get<Sending>(*sent).unit == UnitOfRoot::PutsFront);
    EXPECT(write_record16(Order{Time{86399999, 1000}, Root{0}, Reset::None}).refusal() == Refusal::FaultyRecord);
    EXPECT(write_record16(Order{Time{86400000}, Root{0}, Reset::None}).refusal() == Refusal::FaultyRecord);
    EXPECT(read_record16(Record16{0xFF}).refusal() == Refusal::FaultyRecord && narrow(Record16{0xFF}).refusal() == Refusal::FaultyRecord);
}

static void records_move_between_the_forms() {
    const Record old{0x40, 0, 0, 0x50, 0, 1, 0x11, 0x70, 0, 0x0C, 0x80, 0};
    const auto wide = widen(old);
    EXPECT(std::get<Offer>(*read_record16(*wide)).time.us() == 10000 && *narrow(*wide) == old && widen(Record{0xFF}).refusal() == Refusal::FaultyRecord);
    auto unit = arm("ABCD,abs_vol,XYZ,1000,0");
    EXPECT(unit->answer(*read_record16(*wide))->grant == 200 && passes(unit->order({Time{10, 999}, Root{0}, Reset::None})));
    EXPECT(passes(unit->order({Time{10, 1}, Root{0}, Reset::None})) && unit->order({Time{9, 999}, Root{0}, Reset::None}).refusal() == Refusal::BadTime);
    EXPECT(std::string_view(sentence(Refusal::Unfit)).substr(0, 36) == "the record does not fit the old form");
}

static void an_account_is_kept() {
    auto unit = arm("ABCD,abs_vol,XYZ,100\nABCD,abs_vol,Q,1000\nABCD,abs_vol,,150,,T"), plain = arm("ABCD,abs_vol,XYZ,100\nABCD,abs_vol,Q,1000\nABCD,abs_vol,,150,,T");
    Account account;
    EXPECT(unit->accounted_offer(account, at(0, 60))->grant == 60 && unit->accounted_offer(account, at(1, 60))->root_trip);
    EXPECT(*unit->accounted_order(account, {Time{2}, Root{0}, Reset::None}) == Verdict::RootLocked);
    EXPECT(*unit->accounted_order(account, {Time{2}, Root{1}, Reset::None}) == Verdict::Free && unit->accounted_offer(account, at(1, 1)).refusal() == Refusal::BadTime);
    const Sending sending{Time{3}, Root{1}, UnitOfRoot::CallsFront, Premium{10000}, Contracts{90}, Identity{7}, Reports{2}};
    EXPECT(*unit->accounted_send(account, sending) == Verdict::Free);
    EXPECT(unit->accounted_report(account, {Time{3}, Identity{7}, Contracts{80}})->firm_trip && *unit->accounted_close(account, {Time{3}, Identity{7}}) == Verdict::Free);
    EXPECT(*unit->accounted_lockout(account, RootLockout{Time{4}, Root{1}}) == Verdict::Free && unit->accounted_lockout(account, FirmLockout{Time{4}}).accepted());
    const Figures xyz = account.root(Root{0}), q = account.root(Root{1}), firm = account.firm();
    EXPECT(xyz.accepted == 0 && xyz.rejected == 1 && xyz.fills == 2 && xyz.contracts == 100 && xyz.notional == 7000000 && xyz.cuts == 1 && xyz.trips == 1);
    EXPECT(q.accepted == 2 && q.away_reports == 1 && q.trips == 0 && firm.accepted == 2 && firm.rejected == 1 && firm.trips == 1);
    EXPECT(account.root(Root{0}, Column::Notional) == 7000000 && account.firm(Column::AwayReports) == 1 && account.root(Root{64}, Column::Accepted) == 0);
    EXPECT(account.table()[0].fills == 2 && account.table().back().contracts == 100 && std::string_view(text(Column::Accepted)) == "accepted orders");
    // a figure at its end: the event is refused, and changes nothing
    auto numbers = account.numbers();
    numbers[MBRUMZHEG_COLUMN_REJECTED] = MBRUMZHEG_MOST_FIGURE;
    Account full(numbers);
    const auto before = unit->memory();
    EXPECT(unit->accounted_answer(full, Order{Time{9}, Root{0}, Reset::None}).refusal() == Refusal::AccountFull);
    EXPECT(unit->memory() == before && full.numbers() == numbers && plain->accounted_answer(full, Order{Time{9}, Root{0}, Reset::None}).accepted());
    numbers[MBRUMZHEG_COLUMN_REJECTED] = MBRUMZHEG_MOST_FIGURE + 1ull;
    Account unsound(numbers);
    EXPECT(unit->accounted_answer(unsound, Order{Time{9}, Root{0}, Reset::None}).refusal() == Refusal::Unsound);
}

int main() {
    an_account_is_kept();
    cuts_and_locks();
    locks_are_lifted_without_forgetting();
    fills_come_back_from_away_markets();
    each_unit_counts_for_itself();
    names_and_rules_are_known();
    the_rules_are_written_back();
    refusals_say_why();
    a_unit_moves();
    a_unit_stands_on_lent_memory();
    events_have_records();
    records_carry_microseconds();
    records_move_between_the_forms();
}
