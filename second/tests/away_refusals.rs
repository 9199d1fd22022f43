//! The refusals of sending, reporting and closing, and the places that an order sent away keeps.

mod common;

use common::{armed, full_log, order, refused};
use second::unit::{Away, Unit, LOG_PLACES};

/// A unit with so many fills at time 0 under a window of a second.
fn with_fills(fills: usize) -> Unit {
    let mut unit = armed("A,rate_vol,X,1000000000,1000");
    for _ in 0..fills {
        assert_eq!(unit.offer(0, 0, 0, 1, 1).grant, 1);
    }
    unit
}

#[test]
fn refusal_4_not_armed() {
    let mut unit = Unit::new();
    let rows = [unit.send(0, order(1, 1, 1)), unit.report(0, 1, 1), unit.close(0, 1)].map(|answer| answer.numbers());
    assert_eq!(rows, [[4, 0, 0, 0, 0]; 3]);
}

#[test]
fn sending_is_refused_by_12_then_13_then_14() {
    let mut unit = armed("A,abs_vol,X,100");
    assert_eq!(unit.order(5, 0, 0).refusal, 0);
    let bad = Away { root: 1, unit: 4, premium: 0, contracts: 0, identity: 65_536, reports: 0 };
    for time in [4, 86_400_000, u64::MAX] {
        refused(&unit, 12, |unit| unit.send(time, bad).numbers());
    }
    let good = order(1, 5, 16);
    let unknown =
        [Away { root: 1, ..good }, Away { unit: 4, ..good }, Away { identity: 65_536, ..good }, Away { identity: u64::MAX, ..good }];
    for sent in unknown {
        refused(&unit, 13, |unit| unit.send(5, Away { premium: 0, ..sent }).numbers());
    }
    let premiums = [0, 100_000_001].map(|premium| Away { premium, ..good });
    let contracts = [0, 1_000_001].map(|contracts| Away { contracts, ..good });
    let reports = [0, 17, u64::MAX].map(|reports| Away { reports, ..good });
    for sent in [&premiums[..], &contracts, &reports].concat() {
        refused(&unit, 14, |unit| unit.send(5, sent).numbers());
    }
}

#[test]
fn reporting_is_refused_by_12_13_14_18_19() {
    let mut unit = armed("A,abs_vol,X,100");
    assert_eq!(unit.send(5, order(1, 10, 2)).refusal, 0);
    refused(&unit, 12, |unit| unit.report(4, 65_536, 0).numbers());
    refused(&unit, 13, |unit| unit.report(5, 65_536, 0).numbers());
    refused(&unit, 14, |unit| unit.report(5, 2, 0).numbers());
    refused(&unit, 14, |unit| unit.report(5, 2, 1_000_001).numbers());
    refused(&unit, 18, |unit| unit.report(5, 2, 11).numbers());
    refused(&unit, 19, |unit| unit.report(5, 1, 11).numbers());
    assert_eq!(unit.report(5, 1, 4).grant, 4);
    refused(&unit, 19, |unit| unit.report(5, 1, 7).numbers());
    assert_eq!(unit.report(5, 1, 6).grant, 6);
}

#[test]
fn closing_is_refused_by_12_13_18() {
    let mut unit = armed("A,abs_vol,X,100");
    assert_eq!(unit.send(5, order(1, 10, 2)).refusal, 0);
    refused(&unit, 12, |unit| unit.close(4, 65_536).numbers());
    refused(&unit, 13, |unit| unit.close(5, 65_536).numbers());
    refused(&unit, 18, |unit| unit.close(5, 0).numbers());
    assert_eq!(unit.close(5, 1).refusal, 0);
    refused(&unit, 18, |unit| unit.close(5, 1).numbers());
}

#[test]
fn refusal_17_comes_before_18_and_both_at_any_verdict() {
    let mut unit = armed("A,abs_vol,X,100");
    for identity in 0..63 {
        assert_eq!(unit.send(0, order(identity, 1, 16)).verdict, 0);
    }
    refused(&unit, 18, |unit| unit.send(0, order(0, 1, 1)).numbers());
    refused(&unit, 18, |unit| unit.send(0, order(62, 1, 1)).numbers());
    assert_eq!(unit.send(0, order(63, 1, 16)).verdict, 0);
    for level in [0, 1] {
        refused(&unit, 17, |unit| unit.send(0, order(0, 1, 1)).numbers());
        refused(&unit, 17, |unit| unit.send(0, order(64, 1, 1)).numbers());
        assert_eq!(unit.lockout(0, level, 0).refusal, 0);
    }
    refused(&unit, 17, |unit| unit.send(0, order(0, 1, 1)).numbers());
    assert_eq!(unit.close(0, 9).refusal, 0);
    refused(&unit, 18, |unit| unit.send(0, order(0, 1, 1)).numbers());
    assert_eq!(unit.send(0, order(9, 1, 1)).numbers(), [0, 1, 0, 0, 0]);
    assert_eq!(unit.order(0, 0, 6).verdict, 0);
    assert_eq!(unit.send(0, order(9, 1, 1)).numbers(), [0, 0, 0, 0, 0]);
}

#[test]
fn an_order_with_nothing_left_stays_open_until_it_is_closed() {
    let mut unit = armed("A,abs_vol,X,100");
    assert_eq!(unit.send(0, order(1, 1, 5)).refusal, 0);
    assert_eq!(unit.send(0, order(2, 50, 1)).refusal, 0);
    for identity in [1, 2] {
        assert_eq!(unit.report(0, identity, 1).grant, 1);
        refused(&unit, 19, |unit| unit.report(0, identity, 1).numbers());
        refused(&unit, 18, |unit| unit.send(0, order(identity, 1, 1)).numbers());
        assert_eq!(unit.close(0, identity).refusal, 0);
        refused(&unit, 18, |unit| unit.report(0, identity, 1).numbers());
    }
}

#[test]
fn refusal_15_when_use_and_places_asked_pass_512() {
    let mut unit = with_fills(500);
    refused(&unit, 15, |unit| unit.send(0, order(1, 1, 13)).numbers());
    assert_eq!(unit.send(0, order(1, 1, 7)).verdict, 0);
    refused(&unit, 15, |unit| unit.send(0, order(2, 1, 6)).numbers());
    assert_eq!(unit.send(0, order(2, 1, 5)).verdict, 0);
    refused(&unit, 15, |unit| unit.send(0, order(3, 1, 1)).numbers());
    refused(&unit, 15, |unit| unit.offer(0, 0, 0, 1, 1).numbers());
    refused(&unit, 15, |unit| unit.send(999, order(3, 1, 1)).numbers());
    assert_eq!(unit.clone().send(1_000, order(3, 1, 16)).verdict, 0);
    assert_eq!(unit.close(0, 1).refusal, 0);
    assert_eq!(unit.offer(0, 0, 0, 1, 1).numbers(), [0, 0, 1, 0, 0]);
    assert_eq!(unit.send(0, order(3, 1, 6)).verdict, 0);
}

#[test]
fn refusal_15_at_verdict_0_alone() {
    let mut unit = full_log(1_000);
    refused(&unit, 15, |unit| unit.send(0, order(1, 1, 1)).numbers());
    assert_eq!(unit.lockout(0, 0, 0).refusal, 0);
    assert_eq!(unit.send(0, order(1, 1, 1)).numbers(), [0, 2, 0, 0, 0]);
}

#[test]
fn reports_always_find_their_places() {
    let mut unit = with_fills(LOG_PLACES - 16);
    assert_eq!(unit.send(0, order(1, 100, 16)).verdict, 0);
    for left in (0..16).rev() {
        assert_eq!(unit.report(0, 1, 1).numbers(), [0, 0, 1, 0, 0]);
        refused(&unit, 15, |unit| unit.offer(0, 0, 0, 1, 1).numbers());
        refused(&unit, 15, |unit| unit.send(0, order(2, 1, 1)).numbers());
        assert_eq!(unit.armed.as_ref().unwrap().log.len(), LOG_PLACES - left);
    }
}

#[test]
fn places_are_kept_until_closing_though_no_contract_is_open() {
    let mut unit = with_fills(LOG_PLACES - 3);
    assert_eq!(unit.send(0, order(1, 5, 3)).verdict, 0);
    assert_eq!(unit.report(0, 1, 5).grant, 5);
    refused(&unit, 15, |unit| unit.offer(0, 0, 0, 1, 1).numbers());
    assert_eq!(unit.close(0, 1).refusal, 0);
    for _ in 0..2 {
        assert_eq!(unit.offer(0, 0, 0, 1, 1).grant, 1);
    }
    refused(&unit, 15, |unit| unit.offer(0, 0, 0, 1, 1).numbers());
}

#[test]
fn without_a_rate_rule_no_place_is_kept() {
    let mut unit = armed("A,abs_vol,X,1000000");
    for identity in 0..64 {
        assert_eq!(unit.send(0, order(identity, 1, 16)).verdict, 0);
    }
    for _ in 0..600 {
        assert_eq!(unit.offer(0, 0, 0, 1, 1).numbers(), [0, 0, 1, 0, 0]);
    }
}
