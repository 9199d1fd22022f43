//! Whole accounted days: the running account holds what the events and answers define, and the calls are the plain ones but for 1, 2 and 21.

mod common;

use std::collections::BTreeSet;

use common::books::Books;
use second::account::{Account, AWAY, FIGURES, FIRM_ROW, MOST_FIGURE, NUMBERS, TRIPS};
use second::accounted;
use second::event::Event;
use second::figures::Day;
use second::gen::{self, AccountDay, Call};
use second::lent::Lent;
use second::memory;
use second::place;
use second::unit::{EventAnswer, Unit};

/// The events of a seed's day under a good profile that stays, each with its answer, and the account that ran beside them.
fn day(seed: u64, n: usize) -> (Vec<(Event, EventAnswer)>, Account) {
    let text = gen::valid_profile(seed);
    let mut unit = Unit::new();
    assert_eq!(unit.arm(&text).refusal, 0);
    let mut account = Account::default();
    let events = gen::events_near(seed, n, &text).into_iter().filter_map(|call: Call| call.event());
    let list = events.map(|event| (event, account.run(&mut unit, event))).collect();
    (list, account)
}

/// Numbers of an account begun at zeros.
fn numbers(account: &Account) -> Vec<u64> {
    let mut numbers = vec![1; NUMBERS];
    account.write(&mut numbers);
    numbers
}

#[test]
fn the_running_account_holds_what_the_list_defines() {
    let mut largest = [0; FIGURES];
    for seed in 0..80 {
        let (list, account) = day(seed, 1_200);
        assert_eq!(numbers(&account), Day { began: &[], list: &list }.figures(), "seed {seed}");
        for (figure, most) in largest.iter_mut().enumerate() {
            *most = account.rows[FIRM_ROW][figure].max(*most);
        }
    }
    assert!(largest.iter().all(|most| *most > 10), "{largest:?}");
}

#[test]
fn an_account_that_begins_later_holds_what_the_rest_of_the_list_defines() {
    let mut reports = 0;
    for seed in 0..40 {
        let text = gen::valid_profile(seed);
        let mut unit = Unit::new();
        assert_eq!(unit.arm(&text).refusal, 0);
        let events: Vec<Event> = gen::events_near(seed, 1_200, &text).into_iter().filter_map(|call| call.event()).collect();
        let (before, after) = events.split_at(events.len() / 2);
        before.iter().for_each(|event| {
            event.run(&mut unit);
        });
        let began = unit.armed.as_ref().unwrap().away.clone();
        let mut account = Account::default();
        let list: Vec<(Event, EventAnswer)> = after.iter().map(|event| (*event, account.run(&mut unit, *event))).collect();
        assert_eq!(numbers(&account), Day { began: &began, list: &list }.figures(), "seed {seed}");
        let of_began = |(event, answer): &&(Event, EventAnswer)| match event {
            Event::Report { identity, .. } => answer.refusal == 0 && began.iter().any(|order| order.identity == *identity),
            _ => false,
        };
        reports += list.iter().filter(of_began).count();
    }
    assert!(reports > 50, "{reports}");
}

#[test]
fn all_columns_but_trips_add_up_over_the_roots() {
    for seed in 0..80 {
        let (_, account) = day(seed, 1_200);
        for figure in (0..FIGURES).filter(|figure| *figure != TRIPS) {
            let sum: u64 = account.rows[..FIRM_ROW].iter().map(|row| row[figure]).sum();
            assert_eq!(account.rows[FIRM_ROW][figure], sum, "seed {seed}, figure {figure}");
        }
    }
}

/// Runs a day over lent numbers and shows each accounted event with both memories before it and its row.
fn run_day(day: &AccountDay, mut show: impl FnMut(Event, &Books, [u64; 5], &Books)) {
    let mut lent = Lent::new(vec![0; place::NUMBERS]);
    let mut account = day.account.clone();
    assert_eq!(lent.arm(&day.text)[0], 0);
    for (place, call) in day.calls.iter().enumerate() {
        let before = Books { memory: lent.numbers().to_vec(), account: account.clone() };
        match (*call, call.event()) {
            (Call::Arm { seed }, _) => drop(lent.arm(&gen::profile(seed))),
            (Call::ArmValid { seed }, _) => drop(lent.arm(&gen::valid_profile(seed))),
            (Call::Clear, _) => drop(lent.clear()),
            (_, Some(event)) if place < day.begins => drop(lent.change(|unit| event.run(unit).numbers())),
            (_, Some(event)) => {
                let row = lent.accounted(&mut account, event);
                show(event, &before, row, &Books { memory: lent.numbers().to_vec(), account: account.clone() });
            }
            _ => {}
        }
    }
}

#[test]
fn accounted_calls_are_the_plain_ones_but_for_1_2_and_21() {
    for seed in 0..40 {
        run_day(&gen::account_day(seed, 150), |event, before, row, after| {
            let (mut memory, mut account) = (before.memory.clone(), before.account.clone());
            assert_eq!(accounted::event(&mut memory, &mut account, event), row, "by slices");
            assert!((&memory, &account) == (&after.memory, &after.account));
            let mut plain = Lent::new(vec![0; place::NUMBERS]);
            plain.numbers_mut().copy_from_slice(&before.memory);
            let plain_row = plain.change(|unit| event.run(unit).numbers());
            match row[0] {
                1 => assert!(before.account.len() < NUMBERS),
                2 => assert!(before.account[..NUMBERS].iter().any(|figure| *figure > MOST_FIGURE)),
                21 => assert_eq!(plain_row[0], 0),
                _ => assert!((row, &after.memory[..]) == (plain_row, plain.numbers())),
            }
            if row[0] != 0 {
                assert!(before == after);
            }
        });
    }
}

/// Which figures of which rows, roots' as 0, would pass the most if the event were counted.
fn passing(event: Event, before: &Books) -> BTreeSet<(bool, usize)> {
    let memory::Held::Sound(armed) = memory::read(&before.memory) else { return BTreeSet::new() };
    let began = armed.away.clone();
    let answer = event.run(&mut Unit { armed: Some(armed) });
    let list = [(event, answer)];
    let more = Day { began: &began, list: &list }.figures();
    let passes = |place: &usize| before.account[*place] + more[*place] > MOST_FIGURE;
    (0..NUMBERS).filter(passes).map(|place| (place / FIGURES == FIRM_ROW, place % FIGURES)).collect()
}

#[test]
fn refusal_21_exactly_when_a_figure_of_the_event_would_pass() {
    let mut alone = BTreeSet::new();
    for seed in 0..150 {
        run_day(&gen::account_day(seed, 150), |event, before, row, _| {
            if ![0, 21].contains(&row[0]) {
                return;
            }
            let passing = passing(event, before);
            assert_eq!(row[0] == 21, !passing.is_empty(), "seed {seed}, {event:?}");
            if passing.len() == 1 {
                alone.extend(passing);
            }
        });
    }
    let all = (0..=AWAY).flat_map(|figure| [(false, figure), (true, figure)]).collect::<BTreeSet<_>>();
    assert_eq!(alone, all, "each figure of roots and firm alone was the cause");
}

#[test]
fn days_for_accounts_begin_in_every_way() {
    let mut ways = [0; 7];
    for seed in 0..300 {
        let day = gen::account_day(seed, 20);
        assert_eq!(day, gen::account_day(seed, 20));
        let figures = &day.account[..NUMBERS.min(day.account.len())];
        let largest = figures.iter().max().copied().unwrap_or(0);
        let is_whole = day.account.len() >= NUMBERS;
        let is_near = is_whole && (MOST_FIGURE - 10..=MOST_FIGURE).contains(&largest);
        let has_no_root = second::profile::read(&day.text).unwrap().roots.is_empty();
        let is_longer = day.account.len() > NUMBERS;
        let such = [is_whole && largest == 0, is_near, largest > MOST_FIGURE, !is_whole, is_longer, day.begins > 0, has_no_root];
        ways.iter_mut().zip(such).for_each(|(times, is_such)| *times += u64::from(is_such));
    }
    assert!(ways.iter().all(|times| *times >= 10), "{ways:?}");
}

#[test]
fn days_for_accounts_give_every_refusal() {
    let mut refusals = BTreeSet::new();
    for seed in 0..100 {
        run_day(&gen::account_day(seed, 1_500), |event, _, row, _| {
            refusals.insert(row[0]);
            let counts = !matches!(event, Event::Lockout { .. } | Event::Close { .. });
            assert!(counts || row[0] != 21, "{event:?}");
        });
    }
    assert_eq!(refusals, BTreeSet::from([0, 1, 2, 4, 12, 13, 14, 15, 17, 18, 19, 21]));
}
