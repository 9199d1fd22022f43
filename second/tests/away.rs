//! Request 6 of document 02: orders sent away, the fills that they report, and their closing.

mod common;

use common::{armed, full_log, order};
use second::unit::{Armed, Away, Entry, Unit, MOST_TOTAL};

/// Ten-thousandths in a dollar.
const DOLLAR: u64 = 10_000;

/// The state of an armed unit.
fn state(unit: &Unit) -> &Armed {
    unit.armed.as_ref().unwrap()
}

#[test]
fn a_sending_enters_the_register_and_sets_the_clock() {
    let mut unit = armed("A,abs_vol,X,5\nA,rate_vol,,5,1000,T");
    let mut expected = state(&unit).clone();
    let sent = Away { identity: 65_535, root: 0, unit: 3, premium: 100_000_000, contracts: 1_000_000, reports: 16 };
    assert_eq!(unit.send(7, sent).numbers(), [0, 0, 0, 0, 0]);
    (expected.clock, expected.away) = (7, vec![sent]);
    assert_eq!(state(&unit), &expected);
}

#[test]
fn under_a_lock_only_the_clock_changes() {
    for (level, verdict) in [(1, 1), (0, 2)] {
        let mut unit = armed("A,rate_vol,X,5,1000");
        assert_eq!(unit.lockout(0, level, 0).refusal, 0);
        let mut expected = state(&unit).clone();
        assert_eq!(unit.send(7, order(1, 5, 16)).numbers(), [0, verdict, 0, 0, 0]);
        expected.clock = 7;
        assert_eq!(state(&unit), &expected);
    }
}

#[test]
fn a_report_counts_at_the_premium_of_its_sending_and_has_a_place_in_the_log() {
    let mut unit = armed("A,abs_ntnl,X,1000\nA,rate_vol,X,100,1000\nA,abs_count,,9,,T\nA,abs_vol,X,50,,,C,F\nA,abs_vol,Y,50");
    let sent = Away { identity: 3, root: 0, unit: 1, premium: 2 * DOLLAR, contracts: 30, reports: 2 };
    assert_eq!(unit.send(5, sent).refusal, 0);
    let mut expected = Armed { clock: 9, away: vec![Away { contracts: 10, reports: 1, ..sent }], ..state(&unit).clone() };
    assert_eq!(unit.report(9, 3, 20).numbers(), [0, 0, 20, 0, 0]);
    expected.totals = vec![[0, 40 * DOLLAR, 0, 0], [0; 4], [1, 0, 0, 0], [0; 4], [0; 4]];
    let (counts_for_root, counts_for_firm) = (true, true);
    expected.log = [Entry { time: 9, root: 0, unit: 1, premium: 2 * DOLLAR, contracts: 20, counts_for_root, counts_for_firm }].into();
    assert_eq!(state(&unit), &expected);
}

#[test]
fn without_a_rate_rule_no_report_joins_the_log() {
    let mut unit = armed("A,abs_vol,X,50");
    assert_eq!(unit.send(0, order(1, 5, 1)).refusal, 0);
    assert_eq!(unit.report(0, 1, 5).grant, 5);
    assert!(state(&unit).log.is_empty());
    assert_eq!(unit.remaining(0, 0, 0).value, 45);
}

#[test]
fn eight_matched_and_three_away_make_eleven() {
    let mut unit = armed("A,rate_count,X,10,1000");
    for time in 0..8 {
        assert_eq!(unit.offer(time, 0, 0, DOLLAR, 1).numbers(), [0, 0, 1, 0, 0]);
    }
    for identity in 0..3 {
        assert_eq!(unit.send(8, order(identity, 1, 1)).verdict, 0);
    }
    let rows: Vec<_> = (0..3).map(|identity| unit.report(9, identity, 1).numbers()).collect();
    assert_eq!(rows, [[0, 0, 1, 0, 0], [0, 0, 1, 0, 0], [0, 0, 1, 1, 0]]);
    assert_eq!(unit.order(9, 0, 0).verdict, 2);
}

#[test]
fn notional_may_pass_its_limit_by_what_is_open_away() {
    let mut unit = armed("A,abs_ntnl,X,1000");
    assert_eq!(unit.offer(0, 0, 0, DOLLAR, 950).grant, 950);
    assert_eq!(unit.send(1, Away { premium: DOLLAR, ..order(1, 100, 1) }).verdict, 0);
    assert_eq!(unit.report(2, 1, 100).numbers(), [0, 0, 100, 1, 0]);
    assert_eq!(state(&unit).totals, [[1_050 * DOLLAR, 0, 0, 0]]);
    assert_eq!(unit.remaining(2, 0, 0).numbers(), [0, 0]);
}

#[test]
fn an_absolute_rule_trips_at_its_limit_and_a_rate_rule_above_it() {
    for (kind, at, above) in [("abs_vol", 1, 1), ("rate_vol", 0, 1)] {
        let mut unit = armed(&format!("A,{kind},,10,1000,T\nA,abs_vol,X,1000"));
        assert_eq!(unit.send(0, order(1, 1_000, 16)).refusal, 0);
        assert_eq!(unit.report(0, 1, 9).numbers(), [0, 0, 9, 0, 0]);
        assert_eq!(unit.report(0, 1, 1).numbers(), [0, 0, 1, 0, at]);
        assert_eq!(unit.report(0, 1, 1).numbers(), [0, 0, 1, 0, above]);
        assert_eq!(unit.report(0, 1, 1).numbers(), [0, 0, 1, 0, 1], "a level tripped before");
        assert_eq!(unit.order(0, 0, 0).verdict, 1);
    }
}

#[test]
fn a_report_looks_at_its_own_unit_and_root() {
    let mut unit = armed("A,abs_vol,X,10\nA,abs_vol,Y,10\nA,rate_vol,X,10,1000,,P,F");
    unit.armed.as_mut().unwrap().totals = vec![[10, 11, 0, 0], [10, 10, 10, 10], [0; 4]];
    assert_eq!(unit.send(0, Away { unit: 2, ..order(1, 50, 16) }).refusal, 0);
    assert_eq!(unit.report(0, 1, 9).numbers(), [0, 0, 9, 0, 0]);
    assert_eq!(unit.report(0, 1, 1).numbers(), [0, 0, 1, 1, 0]);
}

#[test]
fn a_report_is_taken_under_any_lock() {
    let mut unit = armed("A,abs_vol,X,100\nA,abs_vol,,100,,T");
    assert_eq!(unit.send(0, order(1, 50, 16)).refusal, 0);
    assert_eq!(unit.lockout(1, 0, 0).refusal, 0);
    assert_eq!(unit.lockout(1, 1, 0).refusal, 0);
    assert_eq!(unit.report(2, 1, 5).numbers(), [0, 0, 5, 0, 0]);
    assert_eq!([0, 1].map(|rule| unit.remaining(2, rule, 0).value), [95, 95]);
    assert_eq!(unit.close(3, 1).numbers(), [0, 0, 0, 0, 0]);
    assert_eq!(unit.order(3, 0, 0).verdict, 1);
}

#[test]
fn totals_are_held() {
    let mut unit = armed("A,abs_ntnl,X,1000\nA,abs_vol,X,1000");
    unit.armed.as_mut().unwrap().totals = vec![[MOST_TOTAL - 5, 0, 0, 0], [MOST_TOTAL - 1, 0, 0, 0]];
    assert_eq!(unit.send(0, Away { premium: 1, ..order(1, 9, 16) }).refusal, 0);
    assert_eq!(unit.report(0, 1, 1).numbers(), [0, 0, 1, 1, 0]);
    assert_eq!(state(&unit).totals, [[MOST_TOTAL - 4, 0, 0, 0], [MOST_TOTAL, 0, 0, 0]]);
    assert_eq!(unit.report(0, 1, 5).numbers(), [0, 0, 5, 1, 0]);
    assert_eq!(state(&unit).totals, [[MOST_TOTAL, 0, 0, 0]; 2]);
}

#[test]
fn a_report_drops_what_is_out_of_the_window_and_a_sending_does_not() {
    let mut unit = armed("A,rate_vol,X,100,1000\nA,rate_vol,Y,100,50");
    assert_eq!(unit.offer(0, 0, 0, 1, 1).grant, 1);
    assert_eq!(unit.offer(1, 0, 0, 1, 1).grant, 1);
    assert_eq!(unit.send(1_000, order(1, 5, 2)).refusal, 0);
    assert_eq!(state(&unit).log.len(), 2);
    assert_eq!(unit.report(1_000, 1, 1).grant, 1);
    assert_eq!(state(&unit).log.iter().map(|entry| entry.time).collect::<Vec<_>>(), [1, 1_000]);
}

#[test]
fn closing_frees_the_identity_and_its_places() {
    let mut unit = full_log(1_000);
    assert_eq!(unit.send(1_000, order(1, 5, 16)).verdict, 0);
    assert_eq!(unit.close(1_001, 1).numbers(), [0, 0, 0, 0, 0]);
    assert_eq!(state(&unit).away, []);
    assert_eq!(state(&unit).clock, 1_001);
    assert_eq!(unit.send(1_001, order(1, 6, 3)).verdict, 0);
    assert_eq!(state(&unit).away, [order(1, 6, 3)]);
}

#[test]
fn no_reset_touches_the_register() {
    for reset in 0..=6 {
        let mut unit = armed("A,rate_vol,X,10,1000\nA,abs_vol,,10,,T");
        assert_eq!(unit.send(0, order(1, 50, 3)).refusal, 0);
        assert_eq!(unit.report(1, 1, 20).numbers(), [0, 0, 20, 1, 1]);
        assert_eq!(unit.order(2, 0, reset).refusal, 0);
        assert_eq!(state(&unit).away, [order(1, 30, 2)]);
    }
}

#[test]
fn arming_begins_with_nothing_sent() {
    let mut unit = armed("A,rate_vol,X,10,1000");
    assert_eq!(unit.send(0, order(1, 50, 3)).refusal, 0);
    unit.clear();
    assert_eq!(unit.arm(b"A,rate_vol,X,10,1000").refusal, 0);
    assert_eq!(unit, armed("A,rate_vol,X,10,1000"));
}
