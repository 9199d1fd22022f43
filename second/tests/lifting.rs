//! Request 4 of document 02: resets 4 (T), 5 (E) and 6 (both) lift trip and lockout, and what is used stays.

mod common;

use common::{armed, refused};
use second::unit::{Armed, Marks, Unit};

/// A unit whose root 0 and firm have fills in totals and log, a trip and a lockout; root 1 is tripped too.
fn locked() -> Unit {
    let mut unit = armed("A,abs_vol,X,10\nA,rate_vol,X,50,1000\nA,abs_vol,,12,,T\nA,rate_vol,,60,1000,T\nA,abs_vol,Y,1");
    assert_eq!(unit.offer(0, 1, 0, 1, 1).numbers(), [0, 0, 1, 1, 0]);
    assert_eq!(unit.offer(0, 0, 3, 1, 1).numbers(), [0, 0, 1, 0, 0]);
    assert_eq!(unit.offer(0, 0, 0, 1, 10).numbers(), [0, 0, 10, 1, 1]);
    assert_eq!(unit.lockout(0, 0, 0).refusal, 0);
    assert_eq!(unit.lockout(0, 1, 0).refusal, 0);
    unit
}

/// The state with other marks and clock.
fn with(armed: &Armed, clock: u64, firm: Marks, root: Marks) -> Armed {
    let mut other = armed.clone();
    (other.clock, other.firm, other.roots[0]) = (clock, firm, root);
    other
}

#[test]
fn each_lifts_its_own_marks_and_leaves_all_else() {
    let before = locked();
    let state = before.armed.as_ref().unwrap();
    let (none, both) = (Marks::default(), Marks { tripped: true, user: true });
    assert_eq!((state.firm, state.roots[0]), (both, both));
    for (reset, verdict, firm, root) in [(4, 1, both, none), (5, 2, none, both), (6, 0, none, none)] {
        let mut unit = before.clone();
        assert_eq!(unit.order(7, 0, reset).numbers(), [0, verdict, 0, 0, 0]);
        assert_eq!(unit.armed, Some(with(state, 7, firm, root)), "reset {reset}");
    }
}

#[test]
fn the_three_older_resets_still_forget() {
    let mut unit = locked();
    assert_eq!(unit.order(7, 0, 3).verdict, 0);
    assert_eq!([(0, 3), (1, 0), (2, 0), (3, 0)].map(|(rule, of_unit)| unit.remaining(7, rule, of_unit).value), [10, 50, 12, 60]);
}

#[test]
fn what_is_used_stays_used() {
    let mut unit = locked();
    assert_eq!(unit.order(7, 0, 6).verdict, 0);
    assert_eq!([(0, 3), (0, 0), (1, 0), (2, 0), (3, 0)].map(|(rule, of_unit)| unit.remaining(7, rule, of_unit).value), [9, 0, 40, 0, 48]);
}

#[test]
fn a_total_at_its_limit_trips_again() {
    let mut unit = armed("A,abs_vol,X,10\nA,abs_vol,,100,,T");
    assert_eq!(unit.offer(0, 0, 0, 1, 10).numbers(), [0, 0, 10, 1, 0]);
    assert_eq!(unit.order(1, 0, 4).verdict, 0);
    assert_eq!(unit.order(1, 0, 0).verdict, 0);
    assert_eq!(unit.offer(2, 0, 0, 1, 1).numbers(), [0, 0, 0, 1, 0]);
    assert_eq!(unit.order(2, 0, 0).verdict, 2);
    assert_eq!(unit.order(3, 0, 6).verdict, 0);
    assert_eq!(unit.offer(3, 0, 1, 1, 4).numbers(), [0, 0, 4, 0, 0]);
}

#[test]
fn a_lockout_is_lifted_too_and_the_rest_may_be_traded() {
    let mut unit = armed("A,rate_vol,X,10,1000");
    assert_eq!(unit.offer(0, 0, 0, 1, 6).grant, 6);
    assert_eq!(unit.lockout(1, 0, 0).refusal, 0);
    assert_eq!(unit.order(2, 0, 5).verdict, 2);
    assert_eq!(unit.order(2, 0, 4).verdict, 0);
    assert_eq!(unit.offer(3, 0, 0, 1, 9).numbers(), [0, 0, 4, 1, 0]);
}

#[test]
fn refusal_13_above_6_and_for_an_unknown_root() {
    let unit = locked();
    for reset in [7, 8, 1 << 32, u64::MAX] {
        refused(&unit, 13, |unit| unit.order(7, 0, reset).numbers());
    }
    for reset in 4..=6 {
        refused(&unit, 13, |unit| unit.order(7, 2, reset).numbers());
        refused(&unit, 12, |unit| unit.order(86_400_000, 0, reset).numbers());
    }
    let firm_alone = armed("A,abs_vol,,5,,T");
    refused(&firm_alone, 13, |unit| unit.order(0, 0, 5).numbers());
}
