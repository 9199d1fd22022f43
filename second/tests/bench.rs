//! The bench table B1 to B12 of document 01, with B12 as document 02's request 3 has it.

use second::profile::{self, Measure};
use second::unit::Unit;

/// A unit armed from the text, which is a good one.
fn armed(text: &str) -> Unit {
    let mut unit = Unit::new();
    assert_eq!(unit.arm(text.as_bytes()).refusal, 0);
    unit
}

/// Ten-thousandths in a dollar.
const DOLLAR: u64 = 10_000;

#[test]
fn b1_notional_a_minute() {
    let mut unit = armed("ABCD,rate_ntnl,XYZ,1000,60000");
    assert_eq!(unit.offer(0, 0, 0, 7 * DOLLAR, 140).numbers(), [0, 0, 140, 0, 0]);
    assert_eq!(unit.remaining(10, 0, 0).numbers(), [0, 20 * DOLLAR]);
    assert_eq!(unit.offer(10, 0, 0, 7 * DOLLAR, 3).numbers(), [0, 0, 2, 1, 0]);
    assert_eq!(unit.remaining(10, 0, 0).numbers(), [0, 6 * DOLLAR]);
}

#[test]
fn b2_three_rules_and_a_reset() {
    let mut unit = armed("ABCD,rate_vol,MSFT,500,1000\nABCD,rate_vol,MSFT,20000,60000\nABCD,abs_ntnl,MSFT,100000");
    for second in 0..37 {
        let dollars = if second < 12 { 2 } else { 1 };
        assert_eq!(unit.offer(second * 1_000, 0, 0, dollars * DOLLAR, 500).numbers(), [0, 0, 500, 0, 0]);
    }
    assert_eq!(unit.offer(37_000, 0, 0, DOLLAR, 100).grant, 100);
    assert_eq!(unit.offer(38_000, 0, 0, DOLLAR, 400).grant, 400);
    let left = |unit: &Unit| [0, 1, 2].map(|rule| unit.remaining(38_500, rule, 0).value);
    assert_eq!(left(&unit), [100, 1_000, 75_000 * DOLLAR]);
    assert_eq!(unit.offer(38_500, 0, 0, DOLLAR, 200).numbers(), [0, 0, 100, 1, 0]);
    assert_eq!(unit.order(38_500, 0, 0).numbers(), [0, 2, 0, 0, 0]);
    assert_eq!(unit.order(38_500, 0, 1).numbers(), [0, 0, 0, 0, 0]);
    assert_eq!(left(&unit), [500, 20_000, 100_000 * DOLLAR]);
}

#[test]
fn b3_absolute_volume_just_reached() {
    let mut unit = armed("ABCD,abs_vol,XYZ,1000");
    assert_eq!(unit.offer(0, 0, 0, DOLLAR, 950).numbers(), [0, 0, 950, 0, 0]);
    assert_eq!(unit.offer(1, 0, 0, DOLLAR, 50).numbers(), [0, 0, 50, 1, 0]);
}

#[test]
fn b4_rate_volume_just_reached() {
    let mut unit = armed("ABCD,rate_vol,XYZ,1000,1000");
    assert_eq!(unit.offer(0, 0, 0, DOLLAR, 950).numbers(), [0, 0, 950, 0, 0]);
    assert_eq!(unit.offer(1, 0, 0, DOLLAR, 50).numbers(), [0, 0, 50, 0, 0]);
    assert_eq!(unit.order(1, 0, 0).verdict, 0);
}

/// A unit with ten fills at 0 to 9 ms under ten executions a second.
fn ten_fills() -> Unit {
    let mut unit = armed("ABCD,rate_count,XYZ,10,1000");
    for time in 0..10 {
        assert_eq!(unit.offer(time, 0, 0, DOLLAR, 5).numbers(), [0, 0, 5, 0, 0]);
    }
    unit
}

#[test]
fn b5_eleventh_fill_inside_the_second() {
    assert_eq!(ten_fills().offer(999, 0, 0, DOLLAR, 5).numbers(), [0, 0, 0, 1, 0]);
}

#[test]
fn b6_eleventh_fill_after_the_second() {
    assert_eq!(ten_fills().offer(1_000, 0, 0, DOLLAR, 5).numbers(), [0, 0, 5, 0, 0]);
}

#[test]
fn b7_tenth_fill_trips_an_absolute_count() {
    let mut unit = armed("ABCD,abs_count,XYZ,10");
    for time in 0..9 {
        assert_eq!(unit.offer(time, 0, 0, DOLLAR, 5).numbers(), [0, 0, 5, 0, 0]);
    }
    assert_eq!(unit.offer(9, 0, 0, DOLLAR, 5).numbers(), [0, 0, 5, 1, 0]);
}

#[test]
fn b8_one_contract_too_dear() {
    for kind in ["rate_ntnl", "abs_ntnl"] {
        let mut unit = armed(&format!("ABCD,{kind},XYZ,1000,60000"));
        assert_eq!(unit.offer(0, 0, 0, 7 * DOLLAR, 140).grant, 140);
        assert_eq!(unit.offer(1, 0, 0, 21 * DOLLAR, 1).numbers(), [0, 0, 0, 1, 0]);
    }
}

#[test]
fn b9_root_and_firm_cut_alike() {
    let mut unit = armed("ABCD,rate_vol,XYZ,10,1000\nABCD,rate_vol,,10,1000,T");
    assert_eq!(unit.offer(0, 0, 0, DOLLAR, 5).grant, 5);
    assert_eq!(unit.offer(1, 0, 0, DOLLAR, 8).numbers(), [0, 0, 5, 1, 1]);
    assert_eq!(unit.order(1, 0, 0).verdict, 1);
}

#[test]
fn b10_root_cuts_alone() {
    let mut unit = armed("ABCD,rate_vol,XYZ,10,1000\nABCD,rate_vol,,12,1000,T");
    assert_eq!(unit.offer(0, 0, 0, DOLLAR, 5).grant, 5);
    assert_eq!(unit.offer(1, 0, 0, DOLLAR, 8).numbers(), [0, 0, 5, 1, 0]);
    assert_eq!(unit.order(1, 0, 0).verdict, 2);
}

#[test]
fn b11_shortest_window() {
    for (time_limit, window) in [("", 100), ("0", 100), ("99", 100), ("101", 101)] {
        let read = profile::read(format!("ABCD,rate_vol,XYZ,10,{time_limit}").as_bytes()).unwrap();
        assert_eq!(read.rules[0].window, Some(window));
        assert_eq!(read.rules[0].measure, Measure::Volume);
    }
    assert_eq!(profile::read(b"ABCD,rate_vol,XYZ,10").unwrap().rules[0].window, Some(100));
}

#[test]
fn b12_each_unit_counts_for_itself() {
    let mut unit = armed("ABCD,abs_vol,XYZ,100");
    assert_eq!(unit.offer(0, 0, 0, DOLLAR, 60).numbers(), [0, 0, 60, 0, 0]);
    assert_eq!(unit.offer(1, 0, 3, DOLLAR, 60).numbers(), [0, 0, 60, 0, 0]);
}
