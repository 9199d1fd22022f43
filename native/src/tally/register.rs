//! What came up of damage to registers and totals.

use second::memory::{self, Held};
use second::place::{ENTRY_COUNT, REGISTER};
use second::unit::{Armed, LOG_PLACES, MOST_REPORTS};

use super::away::places_used;

/// What is the one thing that makes a state unsound, and what sound states have that no day before the register could.
pub const FOUND: &[&str] =
    &["unsound for an identity twice alone", "unsound for the use alone", "sound with all places used", "sound with a total above 10^15"];

/// The places of an unsound state in that group.
pub fn unsound(numbers: &[u64]) -> Vec<usize> {
    let is_sound = |mended: Vec<u64>| matches!(memory::read(&mended), Held::Sound(_));
    [(0, is_sound(with_other_identities(numbers))), (1, is_sound(without_reports(numbers)))]
        .into_iter()
        .filter(|(_, holds)| *holds)
        .map(|(place, _)| place)
        .collect()
}

/// The places of a sound state in that group.
pub fn sound(armed: &Armed) -> Vec<usize> {
    let is_full = places_used(armed, armed.clock) == LOG_PLACES as u64;
    let is_high = armed.totals.iter().flatten().any(|total| *total > 1_000_000_000_000_000);
    [(2, is_full), (3, is_high)].into_iter().filter(|(_, holds)| *holds).map(|(place, _)| place).collect()
}

/// The first numbers of the orders.
fn firsts(numbers: &mut [u64]) -> impl Iterator<Item = &mut u64> {
    let orders = numbers[REGISTER].min(64) as usize;
    numbers[REGISTER + 1..ENTRY_COUNT].iter_mut().step_by(2).take(orders)
}

/// The same with an identity of its own for each order.
fn with_other_identities(numbers: &[u64]) -> Vec<u64> {
    let mut mended = numbers.to_vec();
    firsts(&mut mended).zip(0..).for_each(|(first, identity)| *first = *first & !(0xFFFF << 13) | identity << 13);
    mended
}

/// The same with no report allowed where the number of reports is in its range.
fn without_reports(numbers: &[u64]) -> Vec<u64> {
    let mut mended = numbers.to_vec();
    firsts(&mut mended).filter(|first| **first & 31 <= MOST_REPORTS).for_each(|first| *first &= !31);
    mended
}
