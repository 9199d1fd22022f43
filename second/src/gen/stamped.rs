//! Records of 16 bytes for a day: the events that a maker draws, stamped within their milliseconds, some of them damaged.

use super::maker::Maker;
use super::random::Random;
use super::records::{flip, odd16};
use crate::event::Event;
use crate::program;
use crate::records16::{self, BYTES, MILLISECOND};

/// How far in milliseconds damage may move the clock, so that most of a day is left to the records after it.
const FARTHEST: u64 = 2_000;

/// So many records of 16 bytes near the limits of a profile, some of them damaged, and maybe a short last one.
pub fn records16(seed: u64, n: usize, text: &[u8]) -> Vec<u8> {
    let mut maker = Maker::following(seed, n, text);
    let mut random = Random::new(!seed);
    let mut all = Vec::new();
    for _ in 0..n {
        let bytes = next(&mut maker, &mut random);
        if let Ok(event) = program::event(&bytes) {
            maker.follow(event.into());
        }
        all.extend_from_slice(&bytes);
    }
    if random.once_in(2) {
        all.truncate(all.len().saturating_sub(random.below(BYTES as u64) as usize));
    }
    all
}

/// The bytes of the maker's next event, now and then damaged.
fn next(maker: &mut Maker, random: &mut Random) -> [u8; BYTES] {
    let whole = maker.choose_any_event().map_or([0; BYTES], |event| stamped(random, event));
    let damaged = damaged(random, whole);
    let is_near = |event: Event| event.time() <= maker.clock + FARTHEST;
    if damaged == whole || program::event(&damaged).map_or(true, is_near) {
        damaged
    } else {
        whole
    }
}

/// The record's bytes with any microseconds beside the event's millisecond, so that two in one millisecond may stand in either order.
fn stamped(random: &mut Random, event: Event) -> [u8; BYTES] {
    let any = random.below(MILLISECOND);
    records16::packed(&event.record(random.pick(&[0, 1, MILLISECOND - 1, any, any])))
}

/// The bytes with a bit flipped, a spare bit set or another record in their place, once in some thirty times.
fn damaged(random: &mut Random, mut bytes: [u8; BYTES]) -> [u8; BYTES] {
    let last = 8 * BYTES as u64 - 1;
    match random.below(100) {
        0..=1 => flip(&mut bytes, random.below(last + 1)),
        2 => flip(&mut bytes, last - random.below(6)),
        3 => return records16::packed(&odd16(random)),
        _ => {}
    }
    bytes
}
