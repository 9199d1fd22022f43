//! The refusals of accounted calls: 1, 4 and 2 by both memories, the event's own, and 21 last.

mod common;

use common::books::{each_kind, Books};
use common::{armed, full_log, order};
use second::account::{ACCEPTED, AWAY, CONTRACTS, CUTS, FILLS, FIRM_ROW, MOST_FIGURE, NOTIONAL, NUMBERS, REJECTED, TRIPS};
use second::event::Event;
use second::lent::Lent;
use second::place::{self, CLOCK, MARK};

/// Books with order 1 open away, whose rules have 10 left.
fn begun() -> Books {
    let mut unit = armed("A,abs_vol,X,10\nA,abs_vol,,10,,T");
    assert_eq!(unit.send(0, order(1, 20, 16)).refusal, 0);
    Books::of(&unit)
}

/// Where a figure of a row stands.
fn place_of(row: usize, figure: usize) -> usize {
    8 * row + figure
}

#[test]
fn refusal_1_by_either_memory_comes_first() {
    for event in each_kind() {
        for (memory, account) in [(place::NUMBERS - 1, NUMBERS), (place::NUMBERS, NUMBERS - 1), (0, NUMBERS), (place::NUMBERS, 0), (0, 0)] {
            let mut books = begun();
            books.account[0] = u64::MAX;
            books.memory[MARK] = 9;
            books.memory.truncate(memory);
            books.account.truncate(account);
            books.refused(1, event);
        }
    }
}

#[test]
fn just_enough_of_both_memories_is_enough() {
    for event in each_kind() {
        let (mut more, mut enough) = (begun(), begun());
        enough.memory.truncate(place::NUMBERS);
        enough.account.truncate(NUMBERS);
        let row = enough.run(event);
        assert_eq!((row[0], row), (0, more.run(event)), "{event:?}");
        assert!(enough.memory[..] == more.memory[..place::NUMBERS] && enough.account[..] == more.account[..NUMBERS]);
    }
}

#[test]
fn refusal_4_comes_before_2() {
    for event in each_kind() {
        let mut books = begun();
        books.memory[MARK] = 0;
        books.refused(4, event);
        books.account[0] = u64::MAX;
        books.refused(4, event);
    }
}

#[test]
fn refusal_2_for_an_unsound_state() {
    for event in each_kind() {
        let mut books = begun();
        books.memory[CLOCK] = 86_400_000;
        books.refused(2, event);
        books.memory[CLOCK] = 0;
        books.memory[MARK] = 2;
        books.refused(2, event);
    }
}

#[test]
fn refusal_2_for_any_figure_above_the_most() {
    for event in each_kind() {
        for figure in [MOST_FIGURE + 1, u64::MAX] {
            for place in 0..NUMBERS {
                let mut books = begun();
                books.account[place] = figure;
                let mut copy = books.clone();
                assert_eq!(copy.run(event)[0], 2, "{event:?} with place {place}");
                assert!(copy == books);
            }
        }
    }
    let mut books = begun();
    books.account[0] = MOST_FIGURE + 1;
    books.refused(2, Event::Order { time: u64::MAX, root: u64::MAX, reset: u64::MAX });
}

#[test]
fn the_most_itself_is_no_refusal_for_events_that_count_nowhere() {
    let mut books = begun();
    books.account[..NUMBERS].fill(MOST_FIGURE);
    assert_eq!(books.run(Event::Lockout { time: 0, level: 0, root: 0 }), [0; 5]);
    assert_eq!(books.offer(0, 1, 1), [0, 2, 0, 0, 0]);
    assert_eq!(books.run(Event::Close { time: 0, identity: 1 }), [0; 5]);
    assert_eq!(books.account[..NUMBERS], [MOST_FIGURE; NUMBERS]);
}

#[test]
fn the_events_own_refusals_come_before_21() {
    let refused = |mut books: Books, refusal: u64, event: Event| {
        books.account[..NUMBERS].fill(MOST_FIGURE);
        books.refused(refusal, event);
    };
    let time = 0;
    refused(begun(), 12, Event::Order { time: 86_400_000, root: 0, reset: 0 });
    refused(begun(), 13, Event::Order { time, root: 1, reset: 0 });
    refused(begun(), 13, Event::Order { time, root: 0, reset: 7 });
    refused(begun(), 14, Event::Offer { time, root: 0, unit: 0, premium: 0, contracts: 1 });
    refused(begun(), 18, Event::Send { time, order: order(1, 1, 1) });
    refused(begun(), 18, Event::Report { time, identity: 2, contracts: 1 });
    refused(begun(), 19, Event::Report { time, identity: 1, contracts: 21 });
    let full = Books::of(&full_log(1_000));
    refused(full.clone(), 15, Event::Offer { time, root: 0, unit: 0, premium: 1, contracts: 1 });
    refused(full, 15, Event::Send { time, order: order(1, 1, 1) });
    let mut unit = armed("A,abs_vol,X,10");
    for identity in 0..64 {
        assert_eq!(unit.send(0, order(identity, 1, 1)).refusal, 0);
    }
    refused(Books::of(&unit), 17, Event::Send { time, order: order(64, 1, 1) });
}

/// Asserts 21 where this figure of root 0 and of the firm has less room than the event brings, and none where it has just as much.
fn passes(books: &Books, event: Event, figure: usize, brings: [u64; 2]) {
    for (row, brings) in [0, FIRM_ROW].into_iter().zip(brings) {
        let mut near = books.clone();
        near.account[place_of(row, figure)] = MOST_FIGURE - brings;
        let mut whole = near.clone();
        assert_eq!(whole.run(event)[0], 0, "{event:?} with figure {figure} of row {row}");
        assert_eq!(whole.account[place_of(row, figure)], MOST_FIGURE);
        if brings > 0 {
            near.account[place_of(row, figure)] += 1;
            near.refused(21, event);
            near.account[place_of(row, figure)] = MOST_FIGURE;
            near.refused(21, event);
        }
    }
}

#[test]
fn refusal_21_exactly_when_a_figure_would_pass() {
    let time = 0;
    let brings = |books: &Books, event: Event, all: [[u64; 2]; 8]| {
        (0..8).for_each(|figure| passes(books, event, figure, all[figure]));
    };
    let mut one = [[0; 2]; 8];
    one[ACCEPTED] = [1, 1];
    brings(&begun(), Event::Order { time, root: 0, reset: 3 }, one);
    brings(&begun(), Event::Send { time, order: order(2, 1, 1) }, one);
    let mut locked = begun();
    assert_eq!(locked.run(Event::Lockout { time, level: 0, root: 0 }), [0; 5]);
    let mut one = [[0; 2]; 8];
    one[REJECTED] = [1, 1];
    brings(&locked, Event::Order { time, root: 0, reset: 0 }, one);
    brings(&locked, Event::Send { time, order: order(2, 1, 1) }, one);
    let mut fill = [[0; 2]; 8];
    (fill[FILLS], fill[CONTRACTS], fill[NOTIONAL]) = ([1, 1], [9, 9], [630_000, 630_000]);
    brings(&begun(), Event::Offer { time, root: 0, unit: 0, premium: 70_000, contracts: 9 }, fill);
    (fill[CONTRACTS], fill[NOTIONAL], fill[CUTS], fill[TRIPS]) = ([10, 10], [700_000, 700_000], [1, 1], [1, 1]);
    brings(&begun(), Event::Offer { time, root: 0, unit: 0, premium: 70_000, contracts: 11 }, fill);
    let mut report = [[0; 2]; 8];
    report[AWAY] = [1, 1];
    brings(&begun(), Event::Report { time, identity: 1, contracts: 9 }, report);
    report[TRIPS] = [1, 1];
    brings(&begun(), Event::Report { time, identity: 1, contracts: 10 }, report);
    brings(&begun(), Event::Close { time, identity: 1 }, [[0; 2]; 8]);
    brings(&begun(), Event::Lockout { time, level: 1, root: 0 }, [[0; 2]; 8]);
}

#[test]
fn the_largest_offer_brings_100_000_000_000_000() {
    let books = Books::armed("A,abs_count,X,1000");
    let offer = Event::Offer { time: 0, root: 0, unit: 0, premium: 100_000_000, contracts: 1_000_000 };
    passes(&books, offer, NOTIONAL, [100_000_000_000_000; 2]);
    passes(&books, offer, CONTRACTS, [1_000_000; 2]);
}

#[test]
fn lent_numbers_with_an_account_are_refused_alike() {
    let event = Event::Order { time: 0, root: 0, reset: 0 };
    let mut lent = Lent::new(vec![0; place::NUMBERS]);
    let mut account = vec![MOST_FIGURE; NUMBERS];
    assert_eq!(lent.accounted(&mut account[1..], event), [1, 0, 0, 0, 0]);
    assert_eq!(lent.accounted(&mut account, event), [4, 0, 0, 0, 0]);
    assert_eq!(lent.arm(b"A,abs_vol,Q,5")[0], 0);
    assert_eq!(lent.accounted(&mut account, event), [21, 0, 0, 0, 0]);
    account[519] += 1;
    assert_eq!(lent.accounted(&mut account, event), [2, 0, 0, 0, 0]);
    lent.numbers_mut()[MARK] = 5;
    account.fill(0);
    assert_eq!(lent.accounted(&mut account, event), [2, 0, 0, 0, 0]);
    lent.set_length(place::NUMBERS - 1);
    assert_eq!(lent.accounted(&mut account, event), [1, 0, 0, 0, 0]);
    assert_eq!(account, [0; NUMBERS]);
}
