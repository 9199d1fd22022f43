//! What came up of resets that give room back, and of entries that count for nothing.

use second::memory::{self, Held};
use second::place::{ENTRY_COUNT, LOG};
use second::unit::LOG_PLACES;

/// How much of a log that was not empty a reset that zeroes counts leaves.
pub const LEFT: &[&str] = &["all", "some", "none", "some of 512", "none of 512"];

/// The places of an order in that group, by the entries before and after.
pub fn left(reset: u64, before: usize, after: usize) -> Vec<usize> {
    if !(1..=3).contains(&reset) || before == 0 {
        return Vec::new();
    }
    let place = match after {
        0 => 2,
        after => usize::from(after < before),
    };
    let of_full = (before == LOG_PLACES && place > 0).then_some(place + 2);
    [Some(place), of_full].into_iter().flatten().collect()
}

/// What makes a state unsound here and nothing else does.
pub const FLAGLESS: &[&str] = &["that count for nothing"];

/// Are these numbers those of a sound state, but for entries that have no flag?
pub fn is_sound_but_for_flags(numbers: &[u64]) -> bool {
    let mut mended = numbers.to_vec();
    let entries = numbers[ENTRY_COUNT].min(LOG_PLACES as u64) as usize;
    let missing = |entry: &&mut [u64]| entry[0] & 3 == 0;
    let flagless = mended[LOG..][..2 * entries].chunks_exact_mut(2).filter(missing).map(|entry| entry[0] |= 1).count();
    flagless > 0 && matches!(memory::read(&mended), Held::Sound(_))
}
