//! Orders sent away, what is reported of them, and their closing: verdicts, trips, kept places and refusals in their order.
mod common;

use common::{armed, contracts, offer, root, time, ArmedUnit};
use mbrumzheg::{
    narrow, raw, Adopted, Answer, Closing, Event, Identity, Level, Premium, Refusal, Report, Reports, Reset, Sending, Unit, UnitOfRoot,
    Verdict, SIZE,
};

fn identity(number: u64) -> Identity {
    Identity::new(number).expect("an identity")
}

/// An order of so many contracts at $1 on puts of the front months of root 0.
fn sending(ms: u64, number: u64, count: u64, reports: u64) -> Sending {
    Sending {
        time: time(ms),
        root: root(0),
        unit: UnitOfRoot::PutsFront,
        premium: Premium::from_ten_thousandths(10_000).expect("a premium"),
        contracts: contracts(count),
        identity: identity(number),
        reports: Reports::new(reports).expect("reports"),
    }
}

fn report(unit: &mut ArmedUnit, ms: u64, number: u64, count: u64) -> Result<(u64, bool, bool), Refusal> {
    let answer = unit.report(Report { time: time(ms), identity: identity(number), contracts: contracts(count) })?;
    assert_eq!(answer.verdict, Verdict::Free, "a report is counted whatever is locked");
    Ok((answer.grant, answer.root_trip, answer.firm_trip))
}

fn close(unit: &mut ArmedUnit, ms: u64, number: u64) -> Result<Verdict, Refusal> {
    unit.close(Closing { time: time(ms), identity: identity(number) })
}

/// One contract on calls of the front months.
fn one(unit: &mut ArmedUnit, ms: u64) -> Result<u64, Refusal> {
    unit.offer(offer(ms, UnitOfRoot::CallsFront, 1, 1)).map(|answer| answer.grant)
}

fn left(unit: &ArmedUnit, rule: u64) -> u64 {
    let of = unit.rule(rule).expect("a rule").scope.units().iter().find(|of| **of == UnitOfRoot::PutsFront);
    unit.remaining(unit.clock(), rule, of.copied().unwrap_or(UnitOfRoot::CallsFront)).expect("not refused")
}

#[test]
fn a_sending_is_judged_as_an_order_is_and_under_a_lock_moves_the_clock_alone() {
    for (level, locked) in [(Level::Root(root(0)), Verdict::RootLocked), (Level::Firm, Verdict::FirmLocked)] {
        let mut unit = armed("ABCD,rate_vol,XYZ,100,1000");
        assert_eq!(unit.send(sending(0, 1, 10, 16)), Ok(Verdict::Free));
        assert_eq!(unit.lockout(time(7), level), Ok(Verdict::Free));
        let before = unit.memory().to_vec();
        assert_eq!(unit.send(sending(7, 2, 10, 16)), Ok(locked));
        assert_eq!(unit.memory(), before);
        assert_eq!((unit.send(sending(8, 2, 10, 16)), unit.clock()), (Ok(locked), time(8)));
        assert_eq!(unit.order(time(8), root(0), Reset::TE), Ok(Verdict::Free));
        assert_eq!(report(&mut unit, 8, 2, 1), Err(Refusal::IdentityClash), "it was not sent");
        assert_eq!((unit.send(sending(8, 2, 10, 16)), report(&mut unit, 8, 2, 1)), (Ok(Verdict::Free), Ok((1, false, false))));
    }
}

#[test]
fn a_report_is_counted_past_the_limit_and_under_locks() {
    let mut unit = armed("ABCD,abs_vol,XYZ,100\nABCD,rate_ntnl,XYZ,100,1000\nABCD,abs_count,,9,,T\nABCD,abs_vol,XYZ,5,,,C,F");
    assert_eq!(unit.send(sending(0, 65_535, 1_000, 4)), Ok(Verdict::Free));
    assert_eq!(report(&mut unit, 1, 65_535, 99), Ok((99, false, false)));
    assert_eq!([0, 1, 2, 3].map(|rule| left(&unit, rule)), [1, 10_000, 8, 5], "a rule of another unit counts nothing");
    assert_eq!(report(&mut unit, 2, 65_535, 1), Ok((1, true, false)), "the absolute rule is at its limit, the rate rule not above");
    assert_eq!(unit.lockout(time(3), Level::Firm), Ok(Verdict::Free));
    assert_eq!(report(&mut unit, 4, 65_535, 300), Ok((300, true, false)), "answered again at a level that had tripped");
    assert_eq!([0, 1, 2].map(|rule| left(&unit, rule)), [0, 0, 6]);
    assert_eq!(unit.order(time(5), root(0), Reset::None), Ok(Verdict::FirmLocked));
    assert_eq!(unit.order(time(5), root(0), Reset::Both), Ok(Verdict::Free));
    assert_eq!([0, 1, 2].map(|rule| left(&unit, rule)), [100, 1_000_000, 9]);
    assert_eq!(report(&mut unit, 5, 65_535, 600), Ok((600, true, false)), "no reset touches the register");
    assert_eq!(report(&mut unit, 5, 65_535, 1), Err(Refusal::OverReported));
}

#[test]
fn a_rate_rule_trips_above_its_limit_and_an_absolute_one_at_it() {
    for (kind, at) in [("rate_vol", false), ("abs_vol", true), ("rate_count", false), ("abs_count", true)] {
        let limit = if kind.ends_with("vol") { 20 } else { 2 };
        let mut unit = armed(&format!("ABCD,{kind},,{limit},1000,T\nABCD,abs_vol,XYZ,1000"));
        assert_eq!(unit.send(sending(0, 3, 100, 16)), Ok(Verdict::Free));
        let trips = [0, 1, 2].map(|ms| report(&mut unit, ms, 3, 10));
        assert_eq!(trips, [Ok((10, false, false)), Ok((10, false, at)), Ok((10, false, true))], "{kind}");
        assert_eq!(unit.order(time(2), root(0), Reset::None), Ok(Verdict::FirmLocked), "{kind}");
    }
}

#[test]
fn sendings_keep_places_of_the_log_that_reports_use_and_closing_gives_back() {
    let mut unit = armed("ABCD,rate_vol,XYZ,1000000,60000");
    assert_eq!((unit.send(sending(0, 1, 9, 16)), unit.send(sending(0, 2, 9, 4))), (Ok(Verdict::Free), Ok(Verdict::Free)));
    for _ in 0..492 {
        assert_eq!(one(&mut unit, 0), Ok(1));
    }
    assert_eq!((one(&mut unit, 0), unit.send(sending(0, 3, 1, 1))), (Err(Refusal::LogFull), Err(Refusal::LogFull)));
    assert_eq!(report(&mut unit, 0, 2, 1), Ok((1, false, false)), "its place was kept");
    assert_eq!(one(&mut unit, 0), Err(Refusal::LogFull));
    assert_eq!(close(&mut unit, 0, 2), Ok(Verdict::Free));
    assert_eq!((unit.send(sending(0, 3, 1, 4)), unit.send(sending(0, 3, 1, 3))), (Err(Refusal::LogFull), Ok(Verdict::Free)));
    assert_eq!(one(&mut unit, 0), Err(Refusal::LogFull));
    assert_eq!(one(&mut unit, 60_000), Ok(1), "fills leave by the window, and kept places stay");
    let mut absolute = armed("ABCD,abs_vol,XYZ,1000000");
    for number in 0..64 {
        assert_eq!(absolute.send(sending(0, number, 9, 16)), Ok(Verdict::Free), "without a rate rule no place is kept");
    }
    assert_eq!((absolute.send(sending(0, 64, 9, 16)), one(&mut absolute, 0)), (Err(Refusal::RegisterFull), Ok(1)));
}

#[test]
fn an_order_stays_open_until_it_is_closed() {
    let mut unit = armed("ABCD,abs_vol,XYZ,1000000");
    assert_eq!((unit.send(sending(0, 1, 5, 2)), unit.send(sending(0, 2, 5, 1))), (Ok(Verdict::Free), Ok(Verdict::Free)));
    assert_eq!((report(&mut unit, 0, 1, 6), report(&mut unit, 0, 1, 5)), (Err(Refusal::OverReported), Ok((5, false, false))));
    assert_eq!(report(&mut unit, 0, 1, 1), Err(Refusal::OverReported), "no contract is open");
    assert_eq!(
        (report(&mut unit, 0, 2, 1), report(&mut unit, 0, 2, 1)),
        (Ok((1, false, false)), Err(Refusal::OverReported)),
        "no report is left"
    );
    assert_eq!(unit.send(sending(0, 1, 5, 2)), Err(Refusal::IdentityClash));
    assert_eq!((close(&mut unit, 0, 1), close(&mut unit, 0, 1)), (Ok(Verdict::Free), Err(Refusal::IdentityClash)));
    assert_eq!(unit.send(sending(0, 1, 5, 2)), Ok(Verdict::Free));
    let Ok(Adopted::Armed(mut again)) = Unit::adopt(unit.into_memory()) else { panic!("a sound state") };
    assert_eq!(
        (report(&mut again, 9, 1, 5), close(&mut again, 9, 2)),
        (Ok((5, false, false)), Ok(Verdict::Free)),
        "saved memory has the register"
    );
}

/// A unit at 5 ms whose register is full and has kept all places.
fn full() -> ArmedUnit {
    let mut unit = armed("ABCD,rate_vol,XYZ,1000000,1000");
    for number in 0..64 {
        assert_eq!(unit.send(sending(5, number, 9, 8)), Ok(Verdict::Free));
    }
    unit
}

#[test]
fn sendings_are_refused_in_order_and_refusals_change_nothing() {
    let unit = full();
    let before = unit.memory().to_vec();
    let mut memory = unit.into_memory();
    // time, root, unit, premium, contracts, identity and reports, each row with faults of its own number and of later ones
    for (refusal, [at, of_root, unit, premium, count, number, reports]) in [
        (12, [4, 9, 9, 0, 0, 65_536, 0]),
        (12, [86_400_000, 9, 9, 0, 0, 65_536, 0]),
        (13, [5, 1, 0, 0, 0, 0, 0]),
        (13, [5, 0, 4, 0, 0, 0, 0]),
        (13, [5, 0, 0, 0, 0, 65_536, 0]),
        (14, [5, 0, 0, 0, 1, 0, 1]),
        (14, [5, 0, 0, 100_000_001, 1, 0, 1]),
        (14, [5, 0, 0, 1, 0, 0, 1]),
        (14, [5, 0, 0, 1, 1_000_001, 0, 1]),
        (14, [5, 0, 0, 1, 1, 0, 0]),
        (14, [5, 0, 0, 1, 1, 0, 17]),
        (17, [5, 0, 0, 1, 1, 0, 16]),
        (17, [5, 0, 0, 1, 1, 64, 1]),
    ] {
        assert_eq!(raw::send(&mut memory, at, of_root, unit, premium, count, number, reports), [refusal, 0, 0, 0, 0]);
    }
    assert_eq!(*memory, before[..]);
    assert_eq!(raw::close(&mut memory, 5, 63), [0; 5]);
    assert_eq!(raw::send(&mut memory, 5, 0, 0, 1, 1, 62, 16), [18, 0, 0, 0, 0], "18 comes before 15");
    assert_eq!(raw::send(&mut memory, 5, 0, 0, 1, 1, 63, 9), [15, 0, 0, 0, 0]);
    assert_eq!(raw::lockout(&mut memory, 5, 0, 0), [0; 5]);
    assert_eq!(raw::send(&mut memory, 5, 0, 0, 1, 1, 62, 9), [18, 0, 0, 0, 0], "18 comes at any verdict");
    assert_eq!(raw::send(&mut memory, 5, 0, 0, 1, 1, 63, 9), [0, 2, 0, 0, 0], "15 comes at verdict 0 alone");
    assert_eq!(raw::order(&mut memory, 5, 0, 4), [0; 5]);
    assert_eq!(raw::send(&mut memory, 5, 0, 0, 1, 1, 63, 8), [0; 5]);
    assert_eq!(raw::lockout(&mut memory, 5, 1, 0), [0; 5]);
    assert_eq!(raw::send(&mut memory, 5, 0, 0, 1, 1, 0, 16), [17, 0, 0, 0, 0], "and so does 17, before 18");
}

#[test]
fn reports_and_closings_are_refused_in_order() {
    let unit = full();
    let before = unit.memory().to_vec();
    let mut memory = unit.into_memory();
    for (refusal, [at, number, count]) in [
        (12, [4, 65_536, 0]),
        (13, [5, 65_536, 0]),
        (13, [5, u64::MAX, 1]),
        (14, [5, 64, 0]),
        (14, [5, 64, 1_000_001]),
        (18, [5, 64, 1_000_000]),
        (19, [5, 63, 10]),
    ] {
        assert_eq!(raw::report(&mut memory, at, number, count), [refusal, 0, 0, 0, 0], "{refusal}");
    }
    for (refusal, [at, number]) in [(12, [4, 65_536]), (13, [5, 65_536]), (18, [5, 64])] {
        assert_eq!(raw::close(&mut memory, at, number), [refusal, 0, 0, 0, 0], "{refusal}");
    }
    assert_eq!(*memory, before[..], "refusals change nothing");
    memory[SIZE - 1] = 7;
    let mut zeros = vec![0; SIZE];
    for (refusal, state) in [(1, &mut vec![0; SIZE - 1][..]), (2, &mut memory[..]), (4, &mut zeros[..])] {
        assert_eq!(raw::send(state, 4, 9, 9, 0, 0, 65_536, 0), [refusal, 0, 0, 0, 0]);
        assert_eq!(raw::report(state, 4, 65_536, 0), [refusal, 0, 0, 0, 0]);
        assert_eq!(raw::close(state, 4, 65_536), [refusal, 0, 0, 0, 0]);
    }
}

#[test]
fn they_are_events_whose_record_has_16_bytes() {
    let mut unit = armed("ABCD,abs_vol,XYZ,10");
    let sent = sending(1, 5, 20, 1);
    let reported = Report { time: time(2), identity: identity(5), contracts: contracts(20) };
    let closed = Closing { time: time(3), identity: identity(5) };
    let counted = Answer { verdict: Verdict::Free, grant: 20, root_trip: true, firm_trip: false };
    for (event, at, on, answer) in [
        (Event::Send(sent), 1, Some(root(0)), Answer::of_verdict(Verdict::Free)),
        (Event::Report(reported), 2, None, counted),
        (Event::Close(closed), 3, None, Answer::of_verdict(Verdict::Free)),
    ] {
        assert_eq!((event.time(), event.root(), unit.answer(event)), (time(at), on, Ok(answer)));
        assert_eq!(event.to_record(), Err(Refusal::FaultyRecord));
        let record = event.to_record16().expect("every event has one");
        assert_eq!((Event::from_record16(&record), narrow(&record)), (Ok(event), Err(Refusal::Unfit)));
    }
    assert_eq!(
        (Identity::new(65_536), Reports::new(0), Reports::new(17)),
        (Err(Refusal::Unknown), Err(Refusal::BadAmount), Err(Refusal::BadAmount))
    );
}
