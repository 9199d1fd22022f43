//! What each reset zeroes, what it lifts, and which places of the log it gives back.
mod common;

use common::{armed, offer, root, time, ArmedUnit};
use mbrumzheg::{raw, Level, Marks, Offer, Refusal, Reset, UnitOfRoot, Verdict};

/// An absolute rule and a rate rule of the root, and one each of the firm.
const FOUR: &str = "ABCD,abs_vol,XYZ,10\nABCD,rate_vol,XYZ,100,60000\nABCD,abs_vol,,10,,T\nABCD,rate_vol,,100,60000,T";
const NONE: Marks = Marks { tripped: false, locked_by_user: false };
const BOTH: Marks = Marks { tripped: true, locked_by_user: true };

/// Ten contracts, which trip root and firm, and a lockout of both by the user.
fn locked_twice() -> ArmedUnit {
    let mut unit = armed(FOUR);
    let answer = unit.offer(offer(0, UnitOfRoot::CallsFront, 1, 10)).expect("not refused");
    assert_eq!((answer.grant, answer.root_trip, answer.firm_trip), (10, true, true));
    for level in [Level::Root(root(0)), Level::Firm] {
        assert_eq!(unit.lockout(time(1), level), Ok(Verdict::Free));
    }
    unit
}

/// What remains of the four rules on calls of the front months.
fn left(unit: &ArmedUnit) -> [u64; 4] {
    [0, 1, 2, 3].map(|rule| unit.remaining(time(2), rule, UnitOfRoot::CallsFront).expect("not refused"))
}

#[test]
fn t_and_e_lift_what_symbol_and_firm_lift_and_zero_nothing() {
    // the marks of root and firm after each reset, and what is left of the four rules
    for (reset, of_root, of_firm, remains) in [
        (Reset::None, BOTH, BOTH, [0, 90, 0, 90]),
        (Reset::Symbol, NONE, BOTH, [10, 100, 0, 90]),
        (Reset::Firm, BOTH, NONE, [0, 90, 10, 100]),
        (Reset::Both, NONE, NONE, [10, 100, 10, 100]),
        (Reset::T, NONE, BOTH, [0, 90, 0, 90]),
        (Reset::E, BOTH, NONE, [0, 90, 0, 90]),
        (Reset::TE, NONE, NONE, [0, 90, 0, 90]),
    ] {
        let mut unit = locked_twice();
        let verdict = match (of_firm.locked(), of_root.locked()) {
            (true, _) => Verdict::FirmLocked,
            (false, true) => Verdict::RootLocked,
            (false, false) => Verdict::Free,
        };
        assert_eq!(unit.order(time(2), root(0), reset), Ok(verdict), "{reset}");
        assert_eq!((unit.root_marks(root(0)), unit.firm_marks(), left(&unit)), (of_root, of_firm, remains), "{reset}");
    }
}

#[test]
fn after_t_a_limit_that_is_reached_grants_nothing_and_trips_again() {
    let mut unit = armed("ABCD,abs_vol,XYZ,10\nABCD,abs_vol,QQQ,10");
    assert_eq!(unit.offer(offer(0, UnitOfRoot::CallsFront, 1, 12)).map(|answer| (answer.grant, answer.root_trip)), Ok((10, true)));
    assert_eq!(unit.lockout(time(1), Level::Root(root(1))), Ok(Verdict::Free));
    assert_eq!(unit.order(time(2), root(0), Reset::T), Ok(Verdict::Free));
    assert_eq!(unit.order(time(2), root(1), Reset::None), Ok(Verdict::RootLocked), "the other root stays locked");
    assert_eq!(unit.offer(offer(3, UnitOfRoot::PutsFront, 1, 4)).map(|answer| answer.grant), Ok(4), "the other units have their own count");
    let answer = unit.offer(offer(4, UnitOfRoot::CallsFront, 1, 1)).expect("not refused");
    assert_eq!((answer.verdict, answer.grant, answer.root_trip), (Verdict::Free, 0, true));
    assert_eq!(unit.order(time(5), root(0), Reset::None), Ok(Verdict::RootLocked));
}

#[test]
fn unlocking_leaves_every_other_number() {
    let mut unit = armed(FOUR);
    assert_eq!(unit.offer(offer(7, UnitOfRoot::PutsTrailing, 1, 3)).map(|answer| answer.grant), Ok(3));
    for (level, reset) in [(Level::Root(root(0)), Reset::T), (Level::Firm, Reset::E), (Level::Firm, Reset::TE)] {
        let before = unit.memory().to_vec();
        assert_eq!(unit.lockout(time(7), level), Ok(Verdict::Free));
        assert_ne!(unit.memory(), before);
        assert_eq!(unit.order(time(7), root(0), reset), Ok(Verdict::Free));
        assert_eq!(unit.memory(), before, "{reset}");
    }
}

/// One contract on root 0 or 1 at a time.
fn one(unit: &mut ArmedUnit, ms: u64, on: u64) -> Result<u64, Refusal> {
    unit.offer(Offer { root: root(on), ..offer(ms, UnitOfRoot::CallsFront, 1, 1) }).map(|answer| answer.grant)
}

/// How many contracts are granted, one at a time, until the log is full.
fn until_full(unit: &mut ArmedUnit, ms: u64) -> usize {
    let granted = (0..).take_while(|_| one(unit, ms, 0) == Ok(1)).count();
    assert_eq!(one(unit, ms, 0), Err(Refusal::LogFull));
    granted
}

#[test]
fn both_on_the_only_root_gives_the_whole_log_back() {
    let mut unit = armed("ABCD,rate_vol,XYZ,1000000,60000");
    assert_eq!(until_full(&mut unit, 0), 512);
    for reset in [Reset::None, Reset::T, Reset::E, Reset::TE, Reset::Symbol] {
        assert_eq!(unit.order(time(1), root(0), reset), Ok(Verdict::Free));
        assert_eq!(one(&mut unit, 1, 0), Err(Refusal::LogFull), "after {reset} the fills count for the firm still");
    }
    assert_eq!(unit.order(time(1), root(0), Reset::Firm), Ok(Verdict::Free));
    assert_eq!(until_full(&mut unit, 1), 512, "after SYMBOL and FIRM they count for nothing");
    assert_eq!(unit.order(time(2), root(0), Reset::Both), Ok(Verdict::Free));
    assert_eq!(one(&mut unit, 2, 0), Ok(1));
    assert_eq!(unit.remaining(time(2), 0, UnitOfRoot::CallsFront), Ok(999_999));
}

#[test]
fn fills_of_another_root_keep_their_places() {
    let mut unit = armed("ABCD,rate_vol,XYZ,1000000,60000\nABCD,rate_vol,QQQ,1000000,60000");
    for _ in 0..200 {
        assert_eq!(one(&mut unit, 0, 1), Ok(1));
    }
    assert_eq!(until_full(&mut unit, 0), 312);
    assert_eq!(unit.order(time(0), root(0), Reset::Both), Ok(Verdict::Free));
    assert_eq!(unit.remaining(time(0), 1, UnitOfRoot::CallsFront), Ok(999_800));
    assert_eq!(until_full(&mut unit, 0), 312);
}

#[test]
fn a_reset_above_6_and_any_reset_of_an_unknown_root_are_refused_with_13() {
    let unit = locked_twice();
    let before = unit.memory().to_vec();
    let mut memory = unit.into_memory();
    for reset in [7, 8, u64::MAX] {
        assert_eq!(raw::order(&mut memory, 2, 0, reset), [13, 0, 0, 0, 0], "{reset}");
    }
    for reset in Reset::ALL {
        assert_eq!(raw::order(&mut memory, 2, 1, reset.number()), [13, 0, 0, 0, 0], "{reset}");
    }
    assert_eq!(raw::order(&mut memory, 0, 1, 7), [12, 0, 0, 0, 0], "12 comes before 13");
    assert_eq!(*memory, before[..], "refusals change nothing");
    let mut firm = armed("ABCD,abs_vol,,10,,T");
    assert_eq!(firm.lockout(time(0), Level::Firm), Ok(Verdict::Free));
    assert_eq!(firm.order(time(0), root(0), Reset::E), Err(Refusal::Unknown), "without a root there is no order that could ask");
}
