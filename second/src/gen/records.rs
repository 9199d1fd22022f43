//! Single records for readers, writers and moving: good ones, ones with an odd field, and damaged bytes.

use super::random::Random;
use crate::records::{self, Record};
use crate::records16::{self, Record16, CLOSING, LAST_MICROSECOND, LAST_RESET, LOCKOUT, MILLISECOND, OFFER, ORDER, REPORT, SENDING};
use crate::unit::{LAST_IDENTITY, MOST_REPORTS};
use crate::{LAST_TIME, MOST_CONTRACTS, MOST_PREMIUM};

/// A good record of 16 bytes of any kind, often with fields at the ends of their ranges.
pub fn record16(random: &mut Random) -> Record16 {
    let Record { root, unit, premium, contracts, level, .. } = any_fields(random);
    let none = Record16 { time: microseconds(random), ..Record16::default() };
    let identity = near(random, 0, LAST_IDENTITY);
    match random.below(CLOSING + 1) {
        ORDER => Record16 { kind: ORDER, root, reset: random.between(0, LAST_RESET), ..none },
        OFFER => Record16 { kind: OFFER, root, unit, premium, contracts, ..none },
        LOCKOUT => Record16 { kind: LOCKOUT, level, root: root * (1 - level), ..none },
        SENDING => {
            let reports = near(random, 1, MOST_REPORTS);
            Record16 { kind: SENDING, root, unit, premium, contracts, identity, reports, ..none }
        }
        REPORT => Record16 { kind: REPORT, identity, contracts, ..none },
        _ => Record16 { kind: CLOSING, identity, ..none },
    }
}

/// A good record of 16 bytes with one field put to another number, most times one that it can't have.
pub fn odd16(random: &mut Random) -> Record16 {
    let mut record = record16(random);
    let field = random.below(10) as usize;
    let odd = odd_number(random, records16::WIDTHS[field]);
    let Record16 { kind, time, root, unit, premium, contracts, reset, level, identity, reports } = &mut record;
    *[kind, time, root, unit, premium, contracts, reset, level, identity, reports][field] = odd;
    record
}

/// Bytes for a reader of 16: a good record, one with an odd field, damaged ones, and ones of another length.
pub fn bytes16(random: &mut Random) -> Vec<u8> {
    let good = records16::packed(&record16(random)).to_vec();
    let odd = records16::packed(&odd16(random)).to_vec();
    good_or_damaged(random, good, odd, records16::WIDTHS[10])
}

/// Bytes for a reader of 12, as those for one of 16.
pub fn bytes12(random: &mut Random) -> Vec<u8> {
    let good = records::packed(&record12(random)).to_vec();
    let odd = records::packed(&odd12(random)).to_vec();
    good_or_damaged(random, good, odd, records::WIDTHS[8])
}

/// A good record of 12 bytes of any kind.
fn record12(random: &mut Random) -> Record {
    let Record { time, root, unit, premium, contracts, reset, level, .. } = any_fields(random);
    let none = Record { time, ..Record::default() };
    match random.below(LOCKOUT + 1) {
        ORDER => Record { kind: ORDER, root, reset, ..none },
        OFFER => Record { kind: OFFER, root, unit, premium, contracts, ..none },
        _ => Record { kind: LOCKOUT, level, root: root * (1 - level), ..none },
    }
}

/// A good record of 12 bytes with one field put to another number.
fn odd12(random: &mut Random) -> Record {
    let mut record = record12(random);
    let field = random.below(8) as usize;
    let odd = odd_number(random, records::WIDTHS[field]);
    let Record { kind, time, root, unit, premium, contracts, reset, level } = &mut record;
    *[kind, time, root, unit, premium, contracts, reset, level][field] = odd;
    record
}

/// Numbers in range for all fields of 12 bytes, the kind apart.
fn any_fields(random: &mut Random) -> Record {
    Record {
        kind: 0,
        time: near(random, 0, LAST_TIME),
        root: near(random, 0, 63),
        unit: random.below(4),
        premium: near(random, 1, MOST_PREMIUM),
        contracts: near(random, 1, MOST_CONTRACTS),
        reset: random.below(4),
        level: random.below(2),
    }
}

/// A time in microseconds, half of the times a whole millisecond or one beside it.
fn microseconds(random: &mut Random) -> u64 {
    let whole = MILLISECOND * near(random, 0, LAST_TIME);
    let any = near(random, 0, LAST_MICROSECOND);
    random.pick(&[whole, whole, whole, whole + 1, whole + 999, any, any])
}

/// A number of a range, half of the times one at its ends.
fn near(random: &mut Random, low: u64, high: u64) -> u64 {
    let any = random.between(low, high);
    random.pick(&[low, low + 1, high - 1, high, any, any, any, any])
}

/// A number that a field of this width may have no use or no room for.
fn odd_number(random: &mut Random, width: u32) -> u64 {
    let room = 1 << width;
    let any = random.below(room);
    let limits = [LAST_MICROSECOND + 1, LAST_TIME + 1, MOST_PREMIUM + 1, MOST_CONTRACTS + 1, CLOSING + 1, LAST_RESET + 1, MOST_REPORTS + 1];
    let limit = random.pick(&limits);
    random.pick(&[0, 1, limit, limit, room - 1, room, u64::MAX, any, any])
}

/// One of the two, or the good one with a bit flipped, a spare bit set, or of another length; or bytes without a meaning.
fn good_or_damaged(random: &mut Random, mut good: Vec<u8>, odd: Vec<u8>, spare: u32) -> Vec<u8> {
    let bits = 8 * good.len() as u64;
    match random.below(12) {
        0..=4 => return good,
        5..=7 => return odd,
        8 => flip(&mut good, random.below(bits)),
        9 => flip(&mut good, bits - 1 - random.below(spare.into())),
        10 => good.resize(random.below(22) as usize, 0),
        _ => good.iter_mut().for_each(|byte| *byte = random.below(256) as u8),
    }
    good
}

/// Flips a bit, counted from the most significant one of the first byte.
pub(super) fn flip(bytes: &mut [u8], bit: u64) {
    bytes[bit as usize / 8] ^= 0x80 >> (bit % 8);
}
