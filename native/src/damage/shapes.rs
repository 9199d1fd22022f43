//! Whole states reshaped so that they nearly make sense.

use second::gen::Random;
use second::memory;
use second::place::*;
use second::profile::{Level, MOST_ROOTS, MOST_RULES};
use second::totals;
use second::unit::{Armed, Entry, Marks, Totals, LOG_PLACES};

use super::register::reshape_register;
use crate::SIZE;

/// The totals from some account on moved by a few places, as if a rule before them had another number of accounts.
pub fn moved_totals(random: &mut Random, armed: &Armed, numbers: &[u64]) -> Vec<(usize, u64)> {
    let accounts = totals::accounts(&armed.profile.rules).len();
    let (first, by) = (random.below(accounts as u64) as usize, random.pick(&[1, 3, 4]));
    let (before, after) = numbers[TOTALS..FIRM_TRIPPED].split_at(first);
    let moved = match random.once_in(2) {
        true => [before, &vec![0; by], after].concat(),
        false => [before, &after[by.min(after.len())..], &vec![0; by]].concat(),
    };
    let places = (TOTALS..FIRM_TRIPPED).zip(moved);
    places.filter(|(place, number)| numbers[*place] != *number).collect()
}

/// The numbers by which a state differs after its rules, roots, log or register were reshaped.
pub fn reshaped(random: &mut Random, mut armed: Armed, numbers: &[u64]) -> Vec<(usize, u64)> {
    match random.below(7) {
        0 | 1 => reshape_rules(random, &mut armed),
        2 => reshape_log(random, &mut armed),
        3 => reshape_roots(random, &mut armed),
        _ => reshape_register(random, &mut armed),
    }
    let mut other = vec![0; SIZE];
    memory::write(&armed, &mut other);
    (0..SIZE).filter(|place| other[*place] != numbers[*place]).map(|place| (place, other[place])).collect()
}

/// Turns, exchanges, removes, doubles or moves rules.
fn reshape_rules(random: &mut Random, armed: &mut Armed) {
    let rules = &mut armed.profile.rules;
    let [one, other] = [(); 2].map(|_| random.below(rules.len() as u64) as usize);
    match random.below(6) {
        0 => {
            // the other kind, its totals at 0
            let window = random.pick(&[99, 100, 1_000, 86_400_000, 86_400_001]);
            rules[one].window = if rules[one].window.is_some() { None } else { Some(window) };
            armed.totals[one] = Totals::default();
        }
        1 => rules.iter_mut().for_each(|rule| rule.window = None),
        2 => {
            rules.swap(one, other);
            armed.totals.swap(one, other);
        }
        3 => {
            rules.remove(one);
            armed.totals.remove(one);
        }
        4 if rules.len() < MOST_RULES => {
            rules.push(rules[one].clone());
            armed.totals.push(armed.totals[one]);
        }
        _ => {
            let root = random.below(armed.roots.len() as u64 + 1).min(63);
            let unit = random.below(4);
            rules[one].level = random.pick(&[Level::Firm, Level::Root { root, unit: None }, Level::Root { root, unit: Some(unit) }]);
        }
    }
}

/// Takes an entry away, doubles one, takes its flags away, or adds one of any root at the clock.
fn reshape_log(random: &mut Random, armed: &mut Armed) {
    let place = random.below(armed.log.len().max(1) as u64) as usize;
    let known = armed.log.get(place).copied();
    match (random.below(4), known) {
        (0, Some(_)) => drop(armed.log.remove(place)),
        (2, Some(entry)) => armed.log[place] = Entry { counts_for_root: false, counts_for_firm: false, ..entry },
        (1, Some(entry)) if armed.log.len() < LOG_PLACES => armed.log.insert(place, entry),
        _ if armed.log.len() < LOG_PLACES => {
            let [counts_for_root, counts_for_firm] = [(); 2].map(|_| random.once_in(2));
            let root = random.below(armed.roots.len() as u64 + 1).min(63);
            let (time, unit, premium, contracts) =
                (armed.clock, random.below(4), random.pick(&[1, 70_000, 100_000_000]), random.pick(&[1, 1_000_000]));
            armed.log.push_back(Entry { time, root, unit, premium, contracts, counts_for_root, counts_for_firm });
        }
        _ => armed.log.clear(),
    }
}

/// Exchanges names, takes the last root away, adds one, or locks any.
fn reshape_roots(random: &mut Random, armed: &mut Armed) {
    let names = &mut armed.profile.roots;
    match random.below(4) {
        0 if names.len() > 1 => names.swap(0, 1),
        1 if !names.is_empty() => {
            names.pop();
            armed.roots.pop();
        }
        2 if names.len() < MOST_ROOTS => {
            names.push(b"NEW".to_vec());
            armed.roots.push(Marks::default());
        }
        _ => armed.roots.iter_mut().for_each(|marks| *marks = Marks { tripped: random.once_in(2), user: random.once_in(2) }),
    }
}
