//! Damage to the numbers of a state: single numbers, exchanged ones, and whole states that are reshaped so that they nearly make sense.

mod register;
mod shapes;

use second::gen::Random;
use second::lent::Lent;
use second::place::*;
use second::profile::Rule;
use second::totals;
use second::unit::MOST_TOTAL;
use second::LAST_TIME;

use self::shapes::{moved_totals, reshaped};
use crate::SIZE;

/// Numbers at the ends of ranges and just past them: those of the state, of limits, windows, premiums, contracts, reports, identities and totals.
const ENDS: [u64; 32] = [
    0,
    1,
    2,
    3,
    4,
    16,
    17,
    63,
    64,
    65,
    99,
    100,
    255,
    256,
    257,
    511,
    512,
    513,
    65_535,
    65_536,
    1_000_000,
    1_000_001,
    86_399_999,
    86_400_000,
    86_400_001,
    100_000_000,
    100_000_001,
    1_000_000_000,
    1_000_000_001,
    100_000_000_000,
    1_000_000_000_000_000_000,
    1_000_000_000_000_000_001,
];

/// A number of any size, or one at the end of a range.
pub fn any_number(random: &mut Random) -> u64 {
    let wide = random.number();
    let narrow = wide >> random.below(64);
    let end = random.pick(&ENDS);
    random.pick(&[wide, narrow, end, end, u64::MAX])
}

/// Places of the state and the numbers that they get.
pub fn damage(random: &mut Random, second: &mut Lent) -> Vec<(usize, u64)> {
    match (random.below(16), second.unit().armed.clone()) {
        (0..=1, _) => exchanged(random, second),
        (2, Some(armed)) => moved_totals(random, &armed, second.numbers()),
        (3..=7, Some(armed)) => reshaped(random, armed, second.numbers()),
        _ => {
            let times = random.pick(&[1, 1, 1, 2, 3]);
            (0..times).map(|_| single(random, second)).collect()
        }
    }
}

/// Another number in one place.
fn single(random: &mut Random, second: &mut Lent) -> (usize, u64) {
    let places = part(random, second);
    let place = random.pick(&places);
    (place, other_number(random, second, place))
}

/// Two numbers of one part exchanged, or two pairs of numbers.
fn exchanged(random: &mut Random, second: &mut Lent) -> Vec<(usize, u64)> {
    let places = part(random, second);
    let wide = random.pick(&[1, 2]);
    let starts = [(); 2].map(|_| random.below(places.len() as u64) as usize / wide * wide);
    let sides = (0..wide).map(|side| starts.map(|start| places[(start + side).min(places.len() - 1)]));
    sides.flat_map(|[one, other]| [(one, second.numbers()[other]), (other, second.numbers()[one])]).collect()
}

/// The numbers that stand in no row of a table: mark, clock, firm, counts and locks.
const ALONE: [usize; 11] =
    [MARK, CLOCK, FIRM, ROOT_COUNT, RULE_COUNT, REGISTER, ENTRY_COUNT, FIRM_TRIPPED, FIRM_LOCKED, ROOTS_TRIPPED, ROOTS_LOCKED];
/// Where the orders sent away begin.
const ORDERS: usize = REGISTER + 1;

/// The places of a part of the state that are used, or all places; with one beyond at times.
fn part(random: &mut Random, second: &mut Lent) -> Vec<usize> {
    let Some(armed) = &second.unit().armed else { return (0..SIZE).collect() };
    let (mut places, beyond) = match random.below(9) {
        0 => (ALONE.to_vec(), ROOTS),
        1 => from(ROOTS, armed.roots.len()),
        2 => from(RULES, 2 * armed.profile.rules.len()),
        3 => from(TOTALS, totals::accounts(&armed.profile.rules).len()),
        4 | 5 => from(LOG, 2 * armed.log.len()),
        6 | 7 => from(ORDERS, 2 * armed.away.len()),
        _ => from(0, SIZE),
    };
    if places.is_empty() || random.once_in(20) && beyond < SIZE {
        places.push(beyond);
    }
    places
}

/// So many places from the first on, and the one beyond them.
fn from(first: usize, length: usize) -> (Vec<usize>, usize) {
    ((first..first + length).collect(), first + length)
}

/// Another number for a place: a bit, a unit of some field, a field at an end, a total near its limit, or any number.
fn other_number(random: &mut Random, second: &mut Lent, place: usize) -> u64 {
    let number = second.numbers()[place];
    let bit = 1 << random.below(64);
    match random.below(8) {
        0 => number ^ bit,
        1 => number.wrapping_add(random.pick(&[1, u64::MAX])),
        2 => number.wrapping_add(random.pick(&[bit, bit.wrapping_neg()])),
        3 => any_number(random),
        4 if place == CLOCK && number <= LAST_TIME => random.between(number, LAST_TIME),
        5 if (TOTALS..FIRM_TRIPPED).contains(&place) => total_near(random, second, place - TOTALS),
        _ => other_field(random, number, place),
    }
}

/// The rule that has an account at a place of the totals.
fn rule_at(rules: &[Rule], place: usize) -> Option<&Rule> {
    totals::accounts(rules).get(place).map(|(line, _)| &rules[*line])
}

/// A total about as large as the limit of the rule, at times about as large as any may be.
fn total_near(random: &mut Random, second: &mut Lent, place: usize) -> u64 {
    let rule = second.unit().armed.as_ref().and_then(|armed| rule_at(&armed.profile.rules, place));
    let limit = rule.map_or(0, |rule| rule.limit);
    let less = random.pick(&[0, 1, 2, 9, 50]);
    random.pick(&[limit.saturating_sub(less), limit.saturating_sub(less), limit + less, MOST_TOTAL - less])
}

/// The number with another value in one of its fields.
fn other_field(random: &mut Random, number: u64, place: usize) -> u64 {
    let fields: &[(u32, u32)] = match place {
        RULES..TOTALS if (place - RULES) % 2 == 0 => &[(0, 27), (27, 37)],
        RULES..TOTALS => &[(0, 2), (2, 6), (8, 2), (10, 1), (11, 2)],
        REGISTER | ENTRY_COUNT => &[(0, 64), (0, 10), (0, 6)],
        ORDERS..ENTRY_COUNT if (place - ORDERS) % 2 == 0 => &[(0, 5), (5, 2), (7, 6), (13, 16)],
        ORDERS..ENTRY_COUNT => &[(0, 20), (20, 27)],
        LOG.. if (place - LOG) % 2 == 0 => &[(0, 1), (1, 1), (2, 2), (4, 6), (10, 27)],
        LOG.. => &[(0, 20), (20, 27)],
        _ => &[(0, 64), (0, 8), (8, 8), (0, 6)],
    };
    let (low, width) = random.pick(fields);
    let mask = u64::MAX >> (64 - width);
    number & !(mask << low) | (any_number(random) & mask) << low
}
