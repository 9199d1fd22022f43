//! The refusals of an armed unit's calls, and readings 9 and 10.

mod common;

use common::{armed, full_log, refused, LAST};
use second::unit::Unit;

#[test]
fn refusal_3_arming_twice() {
    let mut unit = armed("A,abs_vol,X,1");
    let before = unit.clone();
    assert_eq!(unit.arm(b"").numbers(), [3, 0, 0, 0, 0]);
    assert_eq!(unit.arm(b"B,abs_vol,X,1").numbers(), [3, 0, 0, 0, 0]);
    assert_eq!(unit, before);
    assert_eq!(unit.clear().numbers(), [0]);
    assert_eq!(unit.arm(b"B,abs_vol,X,1").numbers(), [0, 0, 0x42, 1, 1]);
}

#[test]
fn refusal_4_not_armed() {
    let mut unit = Unit::new();
    assert_eq!(unit.order(u64::MAX, 0, 9).numbers(), [4, 0, 0, 0, 0]);
    assert_eq!(unit.lockout(0, 0, 0).numbers(), [4, 0, 0, 0, 0]);
    assert_eq!(unit.offer(0, 0, 0, 0, 0).numbers(), [4, 0, 0, 0, 0]);
    assert_eq!(unit.remaining(0, 0, 0).numbers(), [4, 0]);
    assert_eq!(unit.status().numbers(), [4, 0, 0, 0, 0]);
    assert_eq!(unit.clear().numbers(), [0]);
    assert_eq!(unit, Unit::new());
}

#[test]
fn refusals_5_to_11_of_arm() {
    let cases: [(&[u8], u64, u64); 7] = [
        (b"", 5, 0),
        (b"A,abs_vol,X", 6, 1),
        (b"A,abs_vol,X,1\nB,abs_vol,X,1", 7, 2),
        (b"A,abs_vol,X,0", 8, 1),
        (b"A,abs_vol,X,1,,T", 9, 1),
        (b"A,abs_vol,X,1,,,C", 10, 1),
        (b"A,abs_vol,X,1\nA,abs_vol,X,1\nA,abs_vol,X,1\nA,abs_vol,X,1\nA,abs_vol,X,1\nA,abs_vol,X,1\nA,abs_vol,X,1", 11, 7),
    ];
    for (text, refusal, line) in cases {
        let mut unit = Unit::new();
        assert_eq!(unit.arm(text).numbers(), [refusal, line, 0, 0, 0]);
        assert_eq!(unit, Unit::new());
    }
}

#[test]
fn refusal_12_time() {
    let mut unit = armed("A,abs_vol,X,100");
    assert_eq!(unit.order(50, 0, 0).refusal, 0);
    for time in [49, 0, LAST + 1, u64::MAX] {
        refused(&unit, 12, |unit| unit.order(time, 9, 9).numbers());
        refused(&unit, 12, |unit| unit.lockout(time, 9, 9).numbers());
        refused(&unit, 12, |unit| unit.offer(time, 9, 9, 0, 0).numbers());
        assert_eq!(unit.remaining(time, 9, 0).numbers(), [12, 0]);
    }
    assert_eq!(unit.order(50, 0, 0).refusal, 0);
    assert_eq!(unit.order(LAST, 0, 0).refusal, 0);
}

#[test]
fn refusal_13_numbers_not_known() {
    let unit = armed("A,abs_vol,X,100");
    for number in [1, 63, 64, 1 << 32, u64::MAX] {
        refused(&unit, 13, |unit| unit.order(5, number, 0).numbers());
        refused(&unit, 13, |unit| unit.offer(5, number, 0, 0, 0).numbers());
        refused(&unit, 13, |unit| unit.lockout(5, 0, number).numbers());
        refused(&unit, 13, |unit| unit.lockout(5, 1, number).numbers());
        assert_eq!(unit.remaining(5, number, 0).numbers(), [13, 0]);
    }
    refused(&unit, 13, |unit| unit.order(5, 0, 7).numbers());
    refused(&unit, 13, |unit| unit.offer(5, 0, 4, 0, 0).numbers());
    refused(&unit, 13, |unit| unit.lockout(5, 2, 0).numbers());
}

#[test]
fn refusal_14_premium_and_contracts() {
    let unit = armed("A,abs_vol,X,100");
    for (premium, contracts) in [(0, 1), (100_000_001, 1), (1, 0), (1, 1_000_001), (u64::MAX, u64::MAX)] {
        refused(&unit, 14, |unit| unit.offer(5, 0, 0, premium, contracts).numbers());
    }
    assert_eq!(unit.clone().offer(5, 0, 0, 100_000_000, 1_000_000).numbers(), [0, 0, 100, 1, 0]);
}

#[test]
fn reading_9_14_before_the_lock_and_15_last() {
    let mut unit = full_log(1_000);
    refused(&unit, 14, |unit| unit.offer(5, 0, 0, 0, 1).numbers());
    refused(&unit, 15, |unit| unit.offer(5, 0, 0, 1, 1).numbers());
    assert_eq!(unit.lockout(6, 0, 0).refusal, 0);
    refused(&unit, 14, |unit| unit.offer(7, 0, 0, 1, 0).numbers());
    assert_eq!(unit.offer(7, 0, 0, 1, 1).numbers(), [0, 2, 0, 0, 0]);
}

#[test]
fn refusal_15_only_inside_the_longest_window() {
    let mut unit = full_log(1_000);
    refused(&unit, 15, |unit| unit.offer(999, 0, 0, 1, 1).numbers());
    assert_eq!(unit.offer(1_000, 0, 0, 1, 1).numbers(), [0, 0, 1, 0, 0]);
    assert_eq!(unit.armed.unwrap().log.len(), 1);
}

#[test]
fn refusal_15_needs_a_grant() {
    let mut unit = armed("A,rate_vol,X,512,1000");
    for _ in 0..512 {
        assert_eq!(unit.offer(0, 0, 0, 1, 1).grant, 1);
    }
    assert_eq!(unit.offer(1, 0, 0, 1, 1).numbers(), [0, 0, 0, 1, 0]);
}

#[test]
fn refusal_15_needs_a_rate_rule() {
    let mut unit = armed("A,abs_vol,X,1000000");
    for _ in 0..2_000 {
        assert_eq!(unit.offer(0, 0, 0, 1, 1).numbers(), [0, 0, 1, 0, 0]);
    }
    assert_eq!(unit.armed.unwrap().log.len(), 0);
}

#[test]
fn reading_10_longest_window_of_all_rules() {
    let mut unit = armed("A,rate_vol,X,1000000000,100\nA,rate_vol,Y,1000000000,5000");
    for _ in 0..512 {
        assert_eq!(unit.offer(0, 0, 0, 1, 1).grant, 1);
    }
    refused(&unit, 15, |unit| unit.offer(4_999, 0, 0, 1, 1).numbers());
    assert_eq!(unit.offer(5_000, 0, 0, 1, 1).grant, 1);
}
