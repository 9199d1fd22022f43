//! The scope paper's example, the bench table's lines, and what the types promise of a unit.
mod common;

use common::{armed, contracts, offer, root, time, ArmedUnit};
use mbrumzheg::{
    narrow, widen, Adopted, Armed, Event, Level, Marks, Offer, Premium, Record16Writer, Records16, Refusal, Reset, Status, Time, Unarmed,
    Unit, UnitOfRoot, Verdict, SIZE,
};

/// Grant, root trip and firm trip of an offer of calls in the front months.
fn fill(unit: &mut ArmedUnit, ms: u64, dollars: u64, count: u64) -> (u64, bool, bool) {
    let answer = unit.offer(offer(ms, UnitOfRoot::CallsFront, dollars, count)).expect("not refused");
    assert!(answer.verdict.passes());
    (answer.grant, answer.root_trip, answer.firm_trip)
}

/// What remains of a rule on calls in the front months.
fn left(unit: &ArmedUnit, ms: u64, rule: u64) -> u64 {
    unit.remaining(time(ms), rule, UnitOfRoot::CallsFront).expect("not refused")
}

/// The program's line for an event.
fn line(unit: &mut ArmedUnit, place: usize, event: Event) -> String {
    match unit.answer(event) {
        Ok(a) => {
            let (root_trip, firm_trip) = (u8::from(a.root_trip), u8::from(a.firm_trip));
            format!("{place} 0 {} {} {root_trip} {firm_trip}", a.verdict.number(), a.grant)
        }
        Err(refusal) => format!("{place} {} 0 0 0 0", refusal.number()),
    }
}

#[test]
fn the_example_by_way_of_its_records() {
    let mut writer = Record16Writer::new(Vec::new());
    for event in [
        Event::Offer(offer(0, UnitOfRoot::CallsFront, 7, 950)),
        Event::Offer(offer(10, UnitOfRoot::CallsFront, 7, 200)),
        Event::Order { time: time(20), root: root(0), reset: Reset::None },
    ] {
        writer.write(&event).expect("memory takes bytes");
    }
    let bytes = writer.finish().expect("memory takes bytes");
    assert_eq!(bytes[16..32], [0x10, 0, 0, 0x13, 0x88, 0, 0, 0x11, 0x17, 0, 0, 0xC8, 0, 0, 0, 0]);
    assert_eq!(narrow(&bytes[16..32]), Ok([0x40, 0, 0, 0x50, 0, 0x01, 0x11, 0x70, 0, 0x0C, 0x80, 0]));

    let mut unit = armed("ABCD,abs_vol,XYZ,1000,0");
    let mut lines = vec![format!("armed {} {} {}", unit.firm(), unit.rule_count(), unit.root_count())];
    for (record, place) in Records16::new(&bytes).zip(1..) {
        lines.push(line(&mut unit, place, record.expect("a good record")));
    }
    assert_eq!(lines, ["armed ABCD 1 1", "1 0 0 950 0 0", "2 0 0 50 1 0", "3 0 2 0 0 0"]);
}

#[test]
fn the_unit_goes_by_whole_milliseconds() {
    let mut unit = armed("ABCD,abs_vol,XYZ,1000,0");
    for us in [1_999, 1_001, 1_000] {
        assert_eq!(unit.order(Time::from_us(us).expect("a time"), root(0), Reset::None), Ok(Verdict::Free));
        assert_eq!(unit.clock(), time(1));
    }
    assert_eq!(unit.order(Time::from_us(999).expect("a time"), root(0), Reset::None), Err(Refusal::BadTime));
}

#[test]
fn bench_lines_of_one_root() {
    let mut b1 = armed("ABCD,rate_ntnl,XYZ,1000,60000");
    assert_eq!(fill(&mut b1, 0, 7, 140), (140, false, false));
    assert_eq!(fill(&mut b1, 1, 7, 3), (2, true, false));
    assert_eq!(left(&b1, 1, 0), 60_000, "$6 are left of $1,000");

    let mut b3 = armed("ABCD,abs_vol,XYZ,1000");
    assert_eq!(fill(&mut b3, 0, 1, 950), (950, false, false));
    assert_eq!(fill(&mut b3, 0, 1, 50), (50, true, false));

    let mut b4 = armed("ABCD,rate_vol,XYZ,1000,1000");
    assert_eq!(fill(&mut b4, 0, 1, 950), (950, false, false));
    assert_eq!(fill(&mut b4, 0, 1, 50), (50, false, false));

    for (eleventh, answer) in [(999, (0, true, false)), (1000, (1, false, false))] {
        let mut unit = armed("ABCD,rate_count,XYZ,10,1000");
        for ms in 0..10 {
            assert_eq!(fill(&mut unit, ms, 1, 1), (1, false, false));
        }
        assert_eq!(fill(&mut unit, eleventh, 1, 1), answer);
    }

    let mut b12 = armed("ABCD,abs_vol,XYZ,100");
    assert_eq!(fill(&mut b12, 0, 1, 60), (60, false, false));
    let answer = b12.offer(offer(0, UnitOfRoot::PutsTrailing, 1, 60)).expect("not refused");
    assert_eq!((answer.grant, answer.root_trip, answer.cuts(contracts(60))), (60, false, false));
}

#[test]
fn bench_lines_of_three_rules_and_of_counts() {
    let mut b2 = armed("ABCD,rate_vol,XYZ,500,1000\nABCD,rate_vol,XYZ,20000,60000\nABCD,abs_ntnl,XYZ,100000");
    // 19,000 contracts for $25,000 inside the minute, 400 of them inside the second
    for second in 0..36 {
        assert_eq!(fill(&mut b2, second * 1_000, 1, 500), (500, false, false));
    }
    assert_eq!(fill(&mut b2, 36_000, 1, 500), (500, false, false));
    assert_eq!(fill(&mut b2, 37_000, 1, 100), (100, false, false));
    assert_eq!(fill(&mut b2, 38_000, 16, 400), (400, false, false));
    assert_eq!([0, 1, 2].map(|rule| left(&b2, 38_000, rule)), [100, 1_000, 750_000_000]);
    assert_eq!(fill(&mut b2, 38_000, 1, 200), (100, true, false));
    assert_eq!(b2.order(time(38_000), root(0), Reset::Symbol), Ok(Verdict::Free));
    assert_eq!([0, 1, 2].map(|rule| left(&b2, 38_000, rule)), [500, 20_000, 1_000_000_000]);

    let mut b7 = armed("ABCD,abs_count,XYZ,10");
    for ms in 0..9 {
        assert_eq!(fill(&mut b7, ms, 1, 1), (1, false, false));
    }
    assert_eq!(fill(&mut b7, 9, 1, 1), (1, true, false));

    let mut b8 = armed("ABCD,abs_ntnl,XYZ,1000");
    assert_eq!(fill(&mut b8, 0, 7, 140), (140, false, false));
    assert_eq!(fill(&mut b8, 1, 21, 1), (0, true, false));

    for (window, shortest) in [("", 100), ("0", 100), ("99", 100), ("101", 101)] {
        let mut b11 = armed(&format!("ABCD,rate_count,XYZ,2,{window}"));
        assert_eq!(fill(&mut b11, 0, 1, 1), (1, false, false));
        assert_eq!((left(&b11, shortest - 1, 0), left(&b11, shortest, 0)), (1, 2), "window {window}");
    }
}

#[test]
fn bench_lines_of_root_and_firm() {
    for (firm, trips) in [(5, (5, true, true)), (7, (5, true, false))] {
        let mut unit = armed(&format!("ABCD,rate_vol,XYZ,5,1000\nABCD,rate_vol,,{firm},1000,T"));
        assert_eq!(fill(&mut unit, 0, 1, 8), trips);
    }
}

#[test]
fn status_and_marks_agree() {
    let mut unit = armed("ABCD,abs_vol,XYZ,1000\nABCD,abs_vol,QQQ,1000\nABCD,abs_vol,SPY,1");
    let names: Vec<String> = unit.roots().map(|(root, name)| format!("{} {name}", root.number())).collect();
    assert_eq!(names, ["0 XYZ", "1 QQQ", "2 SPY"]);
    let none = Status { tripped: 0, locked_by_user: 0, locked: 0, lowest_locked: None };
    assert_eq!(unit.status(), Ok(none));

    assert_eq!(fill(&mut unit, 5, 1, 1001), (1000, true, false));
    assert_eq!(unit.lockout(time(6), Level::Root(root(0))), Ok(Verdict::Free));
    let spy = unit.root_named("SPY").expect("the profile has it");
    assert_eq!(unit.lockout(time(7), Level::Root(spy)), Ok(Verdict::Free));
    let status = Status { tripped: 1, locked_by_user: 2, locked: 2, lowest_locked: Some(root(0)) };
    assert_eq!((unit.status(), unit.clock()), (Ok(status), time(7)));
    assert_eq!(unit.root_marks(root(0)), Marks { tripped: true, locked_by_user: true });
    assert_eq!(unit.root_marks(spy), Marks { tripped: false, locked_by_user: true });
    assert!(!unit.root_marks(unit.root_named("QQQ").expect("the profile has it")).locked());

    assert_eq!(unit.lockout(time(8), Level::Firm), Ok(Verdict::Free));
    assert_eq!(unit.firm_marks(), Marks { tripped: false, locked_by_user: true });
    assert_eq!(unit.order(time(9), spy, Reset::None), Ok(Verdict::FirmLocked));
    assert_eq!(unit.order(time(9), spy, Reset::Both), Ok(Verdict::Free));
    assert_eq!((unit.firm_marks(), unit.root_marks(spy)), (Marks::default(), Marks::default()));
}

#[test]
fn records_of_all_kinds_come_back() {
    let roots = [0, 1, 63].map(root);
    let mut events = Vec::new();
    for (root, ms) in roots.into_iter().zip([0, 12_345_678, 86_399_999]) {
        let resets = [Reset::None, Reset::Symbol, Reset::Firm, Reset::Both];
        events.extend(resets.map(|reset| Event::Order { time: time(ms), root, reset }));
        events.extend(UnitOfRoot::ALL.map(|unit| {
            Event::Offer(Offer {
                time: time(ms),
                root,
                unit,
                premium: Premium::from_ten_thousandths(100_000_000).expect("the highest"),
                contracts: contracts(1_000_000),
            })
        }));
        events.push(Event::Lockout { time: time(ms), level: Level::Root(root) });
        events.push(Event::Lockout { time: time(ms), level: Level::Firm });
    }
    for event in events {
        assert_eq!(event.to_record().and_then(|record| Event::from_record(&record)), Ok(event));
        assert_eq!(event.to_record16().and_then(|record| Event::from_record16(&record)), Ok(event));
        assert_eq!(event.to_record().and_then(|record| widen(&record)), event.to_record16());
    }
}

#[test]
fn a_profile_written_back_arms_the_same_unit() {
    let written = "AB,rate_ntnl,Q,100000000000,100\nAB,abs_count,XYZ123,7,,,P,F\nAB,rate_count,,2,101,T\nAB,abs_ntnl,,1,,T\nAB,rate_vol,Q,5,86400000,,C,T\n";
    let given = "AB,rate_ntnl,Q,100000000000,,<any>\nAB,abs_count,XYZ123,0007,any,,P,F\nAB,rate_count,,2,00101,T,,\nAB,abs_ntnl,,1,,T\nAB,rate_vol,Q,5,86400000,,C,T";
    let mut unit = armed(given);
    assert_eq!(unit.profile().as_deref(), Ok(written));
    let again = armed(written);
    assert_eq!((again.memory(), again.profile().as_deref()), (unit.memory(), Ok(written)));

    assert_eq!(fill(&mut unit, 5, 1, 3), (1, false, true));
    let before = unit.memory().to_vec();
    assert_eq!(unit.profile().as_deref(), Ok(written), "a day changes no rule");
    assert_eq!(unit.memory(), before, "and writing changes no number");
}

#[test]
fn a_unit_stands_on_its_own_or_on_lent_memory() {
    fn sendable<T: Send>(value: T) -> T {
        value
    }
    let own: Unit<Box<[u64]>, Unarmed> = sendable(Unit::new());
    let own: Unit<Box<[u64]>, Armed> = own.arm("ABCD,abs_vol,XYZ,1000").expect("accepted");
    let own: Unit<Box<[u64]>, Unarmed> = own.clear();
    assert!(own.memory().iter().all(|number| *number == 0));

    let mut lent = vec![7; SIZE + 10];
    let unit: Unit<&mut [u64], Unarmed> = Unit::cleared(&mut lent[..]).expect("long enough");
    let mut unit = unit.arm("ABCD,abs_vol,XYZ,1000").expect("accepted");
    assert_eq!(unit.order(time(1), root(0), Reset::None), Ok(Verdict::Free));
    assert_eq!(lent[SIZE..], [7; 10], "what is lent beyond the state is untouched");
    assert!(matches!(Unit::adopt(&mut lent[..]), Ok(Adopted::Armed(_))));
}
