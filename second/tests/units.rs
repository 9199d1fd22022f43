//! Request 3 of document 02: each unit keeps its own count of a root limit without call/put and month.

mod common;

use common::{armed, refused};
use second::memory::{read, write, Held};
use second::place::{NUMBERS, TOTALS};
use second::totals;
use second::unit::Unit;

/// What the rule leaves on each unit at a time.
fn left(unit: &Unit, time: u64, rule: u64) -> [u64; 4] {
    [0, 1, 2, 3].map(|of_unit| {
        let [refusal, value] = unit.remaining(time, rule, of_unit).numbers();
        assert_eq!(refusal, 0);
        value
    })
}

#[test]
fn an_absolute_rule_keeps_four_totals() {
    let mut unit = armed("A,abs_vol,X,100");
    for (of_unit, contracts) in [(0, 60), (1, 1), (3, 99), (0, 30)] {
        assert_eq!(unit.offer(0, 0, of_unit, 1, contracts).numbers(), [0, 0, contracts, 0, 0]);
    }
    assert_eq!(left(&unit, 0, 0), [10, 99, 100, 1]);
    assert_eq!(unit.armed.as_ref().unwrap().totals, [[90, 1, 0, 99]]);
    assert_eq!(unit.offer(1, 0, 0, 1, 60).numbers(), [0, 0, 10, 1, 0]);
}

#[test]
fn a_rate_rule_counts_the_entries_of_its_unit_alone() {
    let mut unit = armed("A,rate_vol,X,100,1000");
    for (of_unit, contracts) in [(0, 60), (3, 100), (2, 40)] {
        assert_eq!(unit.offer(0, 0, of_unit, 1, contracts).numbers(), [0, 0, contracts, 0, 0]);
    }
    assert_eq!(left(&unit, 999, 0), [40, 100, 60, 0]);
    assert_eq!(left(&unit, 1_000, 0), [100; 4]);
    assert_eq!(unit.offer(999, 0, 0, 1, 50).numbers(), [0, 0, 40, 1, 0]);
}

#[test]
fn firm_rules_and_rules_of_one_unit_keep_one_count() {
    let mut unit = armed("A,abs_vol,,100,,T\nA,rate_vol,,90,1000,T\nA,abs_vol,X,50,,,C,T\nA,abs_vol,Y,70");
    assert_eq!(unit.offer(0, 0, 1, 1, 40).numbers(), [0, 0, 40, 0, 0]);
    assert_eq!(unit.offer(0, 1, 2, 1, 30).numbers(), [0, 0, 30, 0, 0]);
    assert_eq!([0, 1].map(|rule| unit.remaining(0, rule, 0).value), [30, 20]);
    assert_eq!(unit.remaining(0, 2, 1).value, 10);
    assert_eq!(unit.armed.as_ref().unwrap().totals, [[70, 0, 0, 0], [0; 4], [0, 40, 0, 0], [0, 0, 30, 0]]);
    assert_eq!(unit.offer(1, 0, 0, 1, 25).numbers(), [0, 0, 20, 0, 1]);
}

#[test]
fn one_tripped_unit_locks_the_root() {
    let mut unit = armed("A,abs_count,X,1\nA,abs_count,Y,1");
    assert_eq!(unit.offer(0, 0, 2, 1, 7).numbers(), [0, 0, 7, 1, 0]);
    for of_unit in 0..4 {
        assert_eq!(unit.offer(0, 0, of_unit, 1, 1).numbers(), [0, 2, 0, 0, 0]);
    }
    assert_eq!(unit.order(0, 0, 0).verdict, 2);
    assert_eq!(unit.offer(0, 1, 2, 1, 1).numbers(), [0, 0, 1, 1, 0]);
}

#[test]
fn a_total_at_its_limit_on_another_unit_neither_cuts_nor_trips() {
    let mut unit = armed("A,abs_vol,X,5");
    unit.armed.as_mut().unwrap().totals = vec![[5, 0, 7, 0]];
    assert_eq!(unit.offer(0, 0, 1, 1, 4).numbers(), [0, 0, 4, 0, 0]);
    assert_eq!(unit.clone().offer(0, 0, 1, 1, 1).numbers(), [0, 0, 1, 1, 0]);
    assert_eq!(unit.clone().offer(0, 0, 0, 1, 1).numbers(), [0, 0, 0, 1, 0]);
    assert_eq!(unit.offer(0, 0, 2, 1, 1).numbers(), [0, 0, 0, 1, 0]);
}

#[test]
fn symbol_zeroes_all_four() {
    let mut unit = armed("A,abs_vol,X,10\nA,rate_vol,X,10,1000\nA,abs_vol,Y,10\nA,abs_vol,,100,,T");
    for of_unit in 0..4 {
        assert_eq!(unit.offer(0, 0, of_unit, 1, 1 + of_unit).refusal, 0);
        assert_eq!(unit.offer(0, 1, of_unit, 1, 1).refusal, 0);
    }
    assert_eq!([left(&unit, 0, 0), left(&unit, 0, 1), left(&unit, 0, 2)], [[9, 8, 7, 6], [9, 8, 7, 6], [9; 4]]);
    assert_eq!(unit.order(1, 0, 1).verdict, 0);
    assert_eq!([left(&unit, 1, 0), left(&unit, 1, 1), left(&unit, 1, 2)], [[10; 4], [10; 4], [9; 4]]);
    assert_eq!(unit.remaining(1, 3, 0).value, 86);
}

#[test]
fn refusal_13_for_any_other_unit() {
    let unit = armed("A,abs_vol,,100,,T\nA,abs_vol,X,50,,,P,F\nA,rate_vol,X,70,1000");
    let good: [&[u64]; 3] = [&[0], &[2], &[0, 1, 2, 3]];
    for (rule, own) in (0..).zip(good) {
        for of_unit in [0, 1, 2, 3, 4, 1 << 32, u64::MAX] {
            let refusal = if own.contains(&of_unit) { 0 } else { 13 };
            assert_eq!(unit.remaining(0, rule, of_unit).refusal, refusal, "rule {rule}, unit {of_unit}");
        }
    }
    assert_eq!(unit.remaining(0, 3, 0).numbers(), [13, 0]);
    assert_eq!(unit.remaining(86_400_000, 0, 1).numbers(), [12, 0]);
    refused(&unit, 13, |unit| unit.offer(0, 0, 4, 1, 1).numbers());
}

#[test]
fn such_a_rule_still_counts_once() {
    let six = "A,abs_vol,X,1\n".repeat(6);
    assert_eq!(Unit::new().arm(six.as_bytes()).numbers(), [0, 0, 0x41, 6, 1]);
    let seven = six + "A,abs_vol,X,1,,,C,F\n";
    assert_eq!(Unit::new().arm(seven.as_bytes()).numbers(), [11, 7, 0, 0, 0]);
    let most: String = (0..256).map(|place| format!("A,abs_vol,R{},1\n", place % 64)).collect();
    assert_eq!(Unit::new().arm(most.as_bytes()).rules, 256);
}

/// A firm rule, a rule of one unit, one of a whole root, a rate rule of a whole root, and after them a second firm rule.
const MIXED: &str = "A,abs_vol,,100,,T\nA,abs_vol,X,50,,,P,F\nA,abs_vol,X,70\nA,rate_vol,X,70,1000\nA,abs_vol,,90,,T";

#[test]
fn totals_stand_one_after_the_other() {
    let mut unit = armed(MIXED);
    for of_unit in 0..4 {
        assert_eq!(unit.offer(0, 0, of_unit, 1, 2 + of_unit).refusal, 0);
    }
    let mut numbers = vec![0; NUMBERS];
    write(unit.armed.as_ref().unwrap(), &mut numbers);
    assert_eq!(numbers[TOTALS..][..12], [14, 4, 2, 3, 4, 5, 0, 0, 0, 0, 14, 0]);
    let Held::Sound(read) = read(&numbers) else { panic!("not sound") };
    assert_eq!(read.totals, [[14, 0, 0, 0], [0, 0, 4, 0], [2, 3, 4, 5], [0; 4], [14, 0, 0, 0]]);
    assert_eq!(read, unit.armed.unwrap());
}

#[test]
fn only_accounts_may_have_totals() {
    let unit = armed(MIXED);
    for place in 0..totals::PLACES {
        let mut numbers = vec![0; NUMBERS];
        write(unit.armed.as_ref().unwrap(), &mut numbers);
        numbers[TOTALS + place] = 1;
        assert_eq!(read(&numbers) != Held::Unsound, place < 6 || place == 10, "place {place}");
    }
}

#[test]
fn as_many_totals_as_places() {
    let most: String = (0..256).map(|place| format!("A,abs_vol,R{},7\n", place % 64)).collect();
    let mut unit = armed(&most);
    assert_eq!(unit.offer(0, 63, 3, 1, 6).numbers(), [0, 0, 6, 0, 0]);
    let mut numbers = vec![0; NUMBERS];
    write(unit.armed.as_ref().unwrap(), &mut numbers);
    assert_eq!(numbers[TOTALS + totals::PLACES - 1], 6);
    assert_ne!(read(&numbers), Held::Unsound);
}
