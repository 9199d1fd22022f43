//! The register of orders sent away in lent numbers, and what soundness asks of it.

mod common;

use common::{armed, order};
use second::lent::Lent;
use second::memory::{read, write, Held};
use second::place::{NUMBERS, REGISTER};
use second::unit::{Armed, Away, Unit};

/// A unit with two roots and two orders away.
fn sent() -> Armed {
    let mut unit = armed("A,rate_vol,X,1000,1000\nA,abs_vol,Y,5");
    assert_eq!(unit.send(3, Away { identity: 9, root: 1, unit: 2, premium: 70_000, contracts: 3, reports: 4 }).refusal, 0);
    assert_eq!(unit.send(4, order(65_535, 5, 16)).refusal, 0);
    unit.armed.unwrap()
}

/// The numbers of a state.
fn numbers(state: &Armed) -> Vec<u64> {
    let mut numbers = vec![7; NUMBERS];
    write(state, &mut numbers);
    numbers
}

/// Is the state sound with the first order changed so?
fn is_sound(change: impl FnOnce(&mut Away)) -> bool {
    let mut state = sent();
    change(&mut state.away[0]);
    match read(&numbers(&state)) {
        Held::Sound(held) => held == state,
        _ => false,
    }
}

#[test]
fn the_register_stands_where_it_is_placed() {
    let numbers = numbers(&sent());
    let expected = [2, 9 << 13 | 1 << 7 | 2 << 5 | 4, 70_000 << 20 | 3, 65_535 << 13 | 16, 1 << 20 | 5, 0];
    assert_eq!(numbers[REGISTER..][..6], expected);
}

#[test]
fn fields_in_range_are_sound_and_contracts_and_reports_may_be_0() {
    assert!(is_sound(|_| {}));
    assert!(is_sound(|order| order.contracts = 0));
    assert!(is_sound(|order| order.reports = 0));
    assert!(is_sound(|order| (order.contracts, order.reports) = (1_000_000, 16)));
    assert!(is_sound(|order| (order.identity, order.root, order.unit, order.premium) = (0, 0, 3, 100_000_000)));
}

#[test]
fn fields_out_of_range_are_not() {
    assert!(!is_sound(|order| order.contracts = 1_000_001));
    assert!(!is_sound(|order| order.reports = 17));
    assert!(!is_sound(|order| order.premium = 0));
    assert!(!is_sound(|order| order.premium = 100_000_001));
    assert!(!is_sound(|order| order.root = 2));
    assert!(!is_sound(|order| order.identity = 65_535), "an identity twice");
}

#[test]
fn spare_bits_counts_and_places_not_used_are_0() {
    let good = numbers(&sent());
    let last = REGISTER + 2 * 64;
    for (place, number) in [(REGISTER, 1), (REGISTER, 3), (REGISTER, 65), (REGISTER, u64::MAX), (REGISTER + 5, 1), (last, 1)] {
        let mut bad = good.clone();
        bad[place] = number;
        assert_eq!(read(&bad), Held::Unsound, "{number} in place {place}");
    }
    for (place, bit) in [(REGISTER + 1, 29), (REGISTER + 1, 63), (REGISTER + 2, 47)] {
        let mut bad = good.clone();
        bad[place] ^= 1 << bit;
        assert_eq!(read(&bad), Held::Unsound, "bit {bit} in place {place}");
    }
}

#[test]
fn use_at_the_clock_is_at_most_512() {
    let mut unit = armed("A,rate_vol,X,1000000,1000");
    for _ in 0..500 {
        assert_eq!(unit.offer(0, 0, 0, 1, 1).grant, 1);
    }
    assert_eq!(unit.send(0, order(1, 5, 12)).refusal, 0);
    let mut state = unit.armed.unwrap();
    assert_eq!(read(&numbers(&state)), Held::Sound(state.clone()));
    state.away[0].reports = 13;
    assert_eq!(read(&numbers(&state)), Held::Unsound);
    state.clock = 999;
    assert_eq!(read(&numbers(&state)), Held::Unsound);
    state.clock = 1_000;
    assert_eq!(read(&numbers(&state)), Held::Sound(state.clone()));
}

#[test]
fn without_a_rate_rule_there_is_no_use() {
    let mut unit = armed("A,abs_vol,X,100");
    for identity in 0..64 {
        assert_eq!(unit.send(0, order(identity, 5, 16)).refusal, 0);
    }
    let state = unit.armed.unwrap();
    assert_eq!(read(&numbers(&state)), Held::Sound(state));
}

#[test]
fn a_total_may_be_10_to_the_18() {
    let mut state = sent();
    for (total, is_sound) in [(1_000_000_000_000_000_000, true), (1_000_000_000_000_000_001, false)] {
        state.totals[1][3] = total;
        assert_eq!(read(&numbers(&state)) == Held::Sound(state.clone()), is_sound);
    }
}

#[test]
fn the_calls_leave_what_they_say_in_lent_numbers() {
    let mut lent = Lent::new(vec![0; NUMBERS]);
    assert_eq!(lent.change(|unit| unit.send(0, order(1, 5, 2)).numbers()), [4, 0, 0, 0, 0]);
    assert_eq!(lent.arm(b"A,rate_vol,X,4,1000")[0], 0);
    assert_eq!(lent.change(|unit| unit.send(0, order(1, 5, 2)).numbers()), [0; 5]);
    assert_eq!(lent.change(|unit| unit.report(1, 1, 5).numbers()), [0, 0, 5, 1, 0]);
    let mut unit = Unit { armed: None };
    assert_eq!(unit.arm(b"A,rate_vol,X,4,1000").refusal, 0);
    unit.send(0, order(1, 5, 2));
    unit.report(1, 1, 5);
    assert_eq!(lent.numbers(), numbers(unit.armed.as_ref().unwrap()));
    assert_eq!(lent.change(|unit| unit.close(1, 1).numbers()), [0; 5]);
    assert_eq!(lent.numbers()[REGISTER..][..3], [0; 3]);
}
