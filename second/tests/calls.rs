//! The calls of an armed unit, and readings 12 to 21.

mod common;

use common::{armed, refused, LAST};
use second::unit::{text, Unit};

#[test]
fn reading_12_every_grant_joins_the_log() {
    let mut unit = armed("A,abs_vol,X,7\nA,rate_vol,Y,10,1000,,C,F");
    assert_eq!(unit.offer(0, 1, 3, 1, 4).numbers(), [0, 0, 4, 0, 0]);
    assert_eq!(unit.offer(1, 0, 0, 1, 9).numbers(), [0, 0, 7, 1, 0]);
    let log = unit.armed.unwrap().log;
    let entries: Vec<_> = log.iter().map(|entry| (entry.time, entry.root, entry.unit, entry.contracts)).collect();
    assert_eq!(entries, [(0, 1, 3, 4), (1, 0, 0, 7)]);
    assert!(log.iter().all(|entry| entry.counts_for_root && entry.counts_for_firm));
}

#[test]
fn reading_13_no_grant_leaves_the_log_but_sets_the_clock() {
    let mut unit = armed("A,rate_vol,X,5,100\nA,abs_ntnl,X,1,,,P,T");
    assert_eq!(unit.offer(0, 0, 0, 1, 5).grant, 5);
    assert_eq!(unit.offer(500, 0, 3, 20_000, 1).numbers(), [0, 0, 0, 1, 0]);
    assert_eq!(unit.armed.as_ref().unwrap().log.len(), 1);
    assert_eq!(unit.armed.as_ref().unwrap().clock, 500);
    assert_eq!(unit.offer(700, 0, 0, 1, 5).numbers(), [0, 2, 0, 0, 0]);
    assert_eq!(unit.armed.as_ref().unwrap().log.len(), 1);
    assert_eq!(unit.armed.as_ref().unwrap().clock, 700);
}

#[test]
fn reading_14_remaining_never_sets_the_clock() {
    let mut unit = armed("A,rate_vol,X,5,1000");
    assert_eq!(unit.offer(100, 0, 0, 1, 2).grant, 2);
    assert_eq!(unit.remaining(99, 0, 0).numbers(), [12, 0]);
    assert_eq!(unit.remaining(1_099, 0, 0).numbers(), [0, 3]);
    assert_eq!(unit.remaining(1_100, 0, 0).numbers(), [0, 5]);
    assert_eq!(unit.remaining(100, 0, 0).numbers(), [0, 3]);
}

#[test]
fn reading_15_firm_rules_alone_have_no_root() {
    let mut unit = armed("A,abs_vol,,5,,T");
    refused(&unit, 13, |unit| unit.order(0, 0, 0).numbers());
    refused(&unit, 13, |unit| unit.order(0, 0, 2).numbers());
    refused(&unit, 13, |unit| unit.offer(0, 0, 0, 1, 1).numbers());
    refused(&unit, 13, |unit| unit.lockout(0, 0, 0).numbers());
    assert_eq!(unit.lockout(3, 1, 0).numbers(), [0, 0, 0, 0, 0]);
    assert_eq!(unit.remaining(3, 0, 0).numbers(), [0, 5]);
    assert_eq!(unit.status().numbers(), [0, 0, 0, 0, 64]);
}

#[test]
fn reading_16_lockout_answers_0_where_locked_already() {
    let mut unit = armed("A,abs_vol,X,5");
    for _ in 0..2 {
        assert_eq!(unit.lockout(1, 1, 0).numbers(), [0, 0, 0, 0, 0]);
        assert_eq!(unit.lockout(1, 0, 0).numbers(), [0, 0, 0, 0, 0]);
    }
    assert_eq!(unit.order(1, 0, 0).verdict, 1);
    assert_eq!(unit.order(1, 0, 2).verdict, 2);
    assert_eq!(unit.order(1, 0, 1).verdict, 0);
}

#[test]
fn reading_17_status_counts_the_roots_own_marks() {
    let mut unit = armed("A,abs_vol,X,5\nA,abs_vol,Y,5\nA,abs_vol,Z,5");
    assert_eq!(unit.status().numbers(), [0, 0, 0, 0, 64]);
    assert_eq!(unit.lockout(0, 1, 0).refusal, 0);
    assert_eq!(unit.status().numbers(), [0, 0, 0, 0, 64]);
    assert_eq!(unit.order(0, 0, 2).verdict, 0);
    assert_eq!(unit.offer(1, 2, 0, 1, 5).numbers(), [0, 0, 5, 1, 0]);
    assert_eq!(unit.lockout(1, 0, 2).refusal, 0);
    assert_eq!(unit.status().numbers(), [0, 1, 1, 1, 2]);
    assert_eq!(unit.lockout(1, 0, 1).refusal, 0);
    assert_eq!(unit.status().numbers(), [0, 1, 2, 2, 1]);
    assert_eq!(unit.order(1, 2, 1).verdict, 0);
    assert_eq!(unit.status().numbers(), [0, 0, 1, 1, 1]);
}

#[test]
fn reading_18_total_at_its_limit_trips_at_grant_0() {
    let mut unit = armed("A,abs_vol,X,5\nA,abs_count,X,1000,,,C,F");
    unit.armed.as_mut().unwrap().totals[0][0] = 5;
    assert_eq!(unit.offer(0, 0, 0, 1, 1).numbers(), [0, 0, 0, 1, 0]);
    let mut unit = armed("A,abs_vol,X,5\nA,abs_vol,,5,,T");
    unit.armed.as_mut().unwrap().totals = vec![[6, 0, 0, 0], [5, 0, 0, 0]];
    assert_eq!(unit.offer(0, 0, 0, 1, 1).numbers(), [0, 0, 0, 1, 1]);
    let mut unit = armed("A,abs_vol,X,5");
    unit.armed.as_mut().unwrap().totals = vec![[6, 0, 0, 0]];
    assert_eq!(unit.remaining(0, 0, 0).numbers(), [0, 0]);
}

#[test]
fn reading_19_a_count_rule_is_all_or_nothing() {
    let mut unit = armed("A,rate_count,,1,1000,T\nA,rate_vol,X,5,1000");
    assert_eq!(unit.offer(0, 0, 0, 1, 8).numbers(), [0, 0, 5, 1, 0]);
    let mut unit = armed("A,abs_count,,1,,T\nA,rate_vol,X,5,1000");
    assert_eq!(unit.offer(0, 0, 0, 1, 8).numbers(), [0, 0, 5, 1, 1]);
}

#[test]
fn reading_20_text() {
    for verdict in [0, 3, u64::MAX] {
        assert_eq!(text(verdict, &mut [0; 64]).numbers(), [13, 0]);
        assert_eq!(text(verdict, &mut []).numbers(), [13, 0]);
    }
    for verdict in [1, 2] {
        let mut room = [7; 19];
        assert_eq!(Unit::new().text(verdict, &mut room).numbers(), [1, 0]);
        assert_eq!(room, [7; 19]);
    }
    let mut room = [7; 22];
    assert_eq!(Unit::new().text(1, &mut room).numbers(), [0, 20]);
    assert_eq!(&room, b"f: RiskMgmtFirmLevel\x07\x07");
    let mut room = [7; 20];
    assert_eq!(armed("A,abs_vol,X,1").text(2, &mut room).numbers(), [0, 19]);
    assert_eq!(&room, b"s: RiskMgmtSymLevel\x07");
}

#[test]
fn reading_21_arm_answers_firm_rules_and_roots() {
    let mut unit = Unit::new();
    let answer = unit.arm(b"ABCD,abs_vol,X,1\nABCD,abs_vol,Y,1\nABCD,abs_vol,X,1\n");
    assert_eq!(answer.numbers(), [0, 0, 0x4142_4344, 3, 2]);
}

#[test]
fn notional_has_no_multiplier() {
    let mut unit = armed("A,abs_ntnl,X,29");
    assert_eq!(unit.offer(0, 0, 0, 30_000, 5).numbers(), [0, 0, 5, 0, 0]);
    assert_eq!(unit.armed.as_ref().unwrap().totals, [[150_000, 0, 0, 0]]);
    assert_eq!(unit.offer(0, 0, 0, 20_000, 7).numbers(), [0, 0, 7, 1, 0]);
    assert_eq!(unit.armed.as_ref().unwrap().totals, [[290_000, 0, 0, 0]]);
}

#[test]
fn no_covering_rule_grants_all() {
    let mut unit = armed("A,abs_vol,X,5,,,C,F");
    assert_eq!(unit.offer(0, 0, 1, 1, 1_000_000).numbers(), [0, 0, 1_000_000, 0, 0]);
    assert_eq!(unit.remaining(0, 0, 0).numbers(), [0, 5]);
}

#[test]
fn window_rolls() {
    let mut unit = armed("A,rate_vol,X,10,1000");
    assert_eq!(unit.offer(900, 0, 0, 1, 10).numbers(), [0, 0, 10, 0, 0]);
    assert_eq!(unit.offer(1_100, 0, 0, 1, 1).numbers(), [0, 0, 0, 1, 0]);
    assert_eq!(unit.order(1_900, 0, 0).verdict, 2);
    assert_eq!(unit.offer(1_900, 0, 0, 1, 1).numbers(), [0, 2, 0, 0, 0]);
}

#[test]
fn symbol_reset_leaves_firm_rules() {
    let mut unit = armed("A,rate_vol,X,10,1000\nA,rate_vol,,12,1000,T\nA,abs_vol,X,100\nA,abs_vol,,100,,T\nA,rate_vol,Y,9,1000");
    assert_eq!(unit.offer(0, 0, 0, 1, 7).grant, 7);
    assert_eq!(unit.offer(0, 1, 0, 1, 3).grant, 3);
    assert_eq!(unit.order(1, 0, 1).verdict, 0);
    let left: Vec<u64> = (0..5).map(|rule| unit.remaining(1, rule, 0).value).collect();
    assert_eq!(left, [10, 2, 100, 90, 6]);
    assert_eq!(unit.offer(1, 0, 0, 1, 7).numbers(), [0, 0, 2, 0, 1]);
}

#[test]
fn firm_reset_leaves_roots() {
    let mut unit = armed("A,rate_vol,X,10,1000\nA,rate_vol,,12,1000,T\nA,abs_vol,X,100\nA,abs_vol,,100,,T");
    assert_eq!(unit.offer(0, 0, 0, 1, 7).grant, 7);
    assert_eq!(unit.lockout(0, 0, 0).refusal, 0);
    assert_eq!(unit.lockout(0, 1, 0).refusal, 0);
    assert_eq!(unit.order(1, 0, 2).verdict, 2);
    let left: Vec<u64> = (0..4).map(|rule| unit.remaining(1, rule, 0).value).collect();
    assert_eq!(left, [3, 12, 93, 100]);
    assert_eq!(unit.order(1, 0, 3).verdict, 0);
    let left: Vec<u64> = (0..4).map(|rule| unit.remaining(1, rule, 0).value).collect();
    assert_eq!(left, [10, 12, 100, 100]);
}

#[test]
fn a_locked_offer_counts_nothing() {
    let mut unit = armed("A,abs_vol,X,10\nA,abs_vol,Y,10");
    assert_eq!(unit.lockout(0, 0, 0).refusal, 0);
    assert_eq!(unit.offer(1, 0, 0, 1, 50).numbers(), [0, 2, 0, 0, 0]);
    assert_eq!(unit.offer(1, 1, 0, 1, 5).numbers(), [0, 0, 5, 0, 0]);
    assert_eq!(unit.lockout(2, 1, 0).refusal, 0);
    assert_eq!(unit.offer(2, 1, 0, 1, 50).numbers(), [0, 1, 0, 0, 0]);
    assert_eq!(unit.remaining(2, 0, 0).numbers(), [0, 10]);
    assert_eq!(unit.remaining(2, 1, 0).numbers(), [0, 5]);
}

#[test]
fn longest_window_reaches_over_the_day() {
    let mut unit = armed("A,rate_vol,X,10,86400000");
    assert_eq!(unit.offer(0, 0, 0, 1, 10).grant, 10);
    assert_eq!(unit.offer(LAST, 0, 0, 1, 1).numbers(), [0, 0, 0, 1, 0]);
}
