//! Sequences of calls and records.

use super::call::Call;
use super::maker::Maker;
use super::random::Random;
use crate::records;

/// So many calls for a profile of which only the number of roots is known.
pub fn events(seed: u64, n: usize, roots: u64) -> Vec<Call> {
    let mut maker = Maker::new(seed, n, roots);
    (0..n).map(|_| maker.call()).collect()
}

/// So many calls that follow an armed unit, so that they come near its limits and window ends.
pub fn events_near(seed: u64, n: usize, text: &[u8]) -> Vec<Call> {
    let mut maker = Maker::following(seed, n, text);
    (0..n).map(|_| maker.call()).collect()
}

/// So many records of 12 bytes near the limits of a profile, some with damaged bits and maybe a short last one.
pub fn records(seed: u64, n: usize, text: &[u8]) -> Vec<u8> {
    let mut maker = Maker::following(seed, n, text);
    let mut random = Random::new(!seed);
    let mut all = Vec::new();
    for _ in 0..n {
        let record = maker.event().record().unwrap_or_default();
        let mut bytes = records::packed(&record);
        if random.once_in(50) {
            bytes[random.below(12) as usize] ^= 1 << random.below(8);
        }
        all.extend_from_slice(&bytes);
    }
    if random.once_in(2) {
        all.truncate(all.len().saturating_sub(random.below(12) as usize));
    }
    all
}
