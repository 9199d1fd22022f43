//! Event records of 12 bytes, as a number of 64 bits and one of 32: kind, time, root, unit and premium fill the first.

use super::map::*;

/// Refusal, kind, time, root, unit, premium, contracts, reset and level of so many bytes.
pub fn read_record(bytes: &[u8]) -> [u64; 9] {
    let faulty = [16, 0, 0, 0, 0, 0, 0, 0, 0];
    let Ok(record) = <&[u8; 12]>::try_from(bytes) else { return faulty };
    match fields(record) {
        Some([kind, time, root, unit, premium, contracts, reset, level]) => [0, kind, time, root, unit, premium, contracts, reset, level],
        None => faulty,
    }
}

/// The fields of a record, if it is a good one.
#[inline]
pub fn fields(record: &[u8; 12]) -> Option<[u64; 8]> {
    let [a, b, c, d, e, f, g, h, i, j, k, l] = *record;
    let (high, low) = (u64::from_be_bytes([a, b, c, d, e, f, g, h]), u64::from(u32::from_be_bytes([i, j, k, l])));
    let (kind, time, root, unit, premium) = (high >> 62, high >> 35 & 0x7FF_FFFF, high >> 29 & 63, high >> 27 & 3, high & 0x7FF_FFFF);
    let numbers = [kind, time, root, unit, premium, low >> 12, low >> 10 & 3, low >> 9 & 1];
    is_good(numbers, high, low).then_some(numbers)
}

/// The refusal of writing these eight numbers into a room.
pub fn write_record(numbers: [u64; 8], room: &mut [u8]) -> u64 {
    let [_, _, root, unit, _, _, reset, level] = numbers;
    let (high, low) = side_by_side(numbers);
    if (root > 63) | (unit > 3) | (reset > 3) | (level > 1) | !is_good(numbers, high, low) {
        return 16;
    }
    let Some(room) = room.first_chunk_mut() else { return 1 };
    put(high, low, room);
    0
}

/// The numbers of a record's fields, side by side.
#[inline]
pub fn side_by_side([kind, time, root, unit, premium, contracts, reset, level]: [u64; 8]) -> (u64, u64) {
    (kind << 62 | time << 35 | root << 29 | unit << 27 | premium, contracts << 12 | reset << 10 | level << 9)
}

/// Puts a record into a room.
#[inline]
pub fn put(high: u64, low: u64, room: &mut [u8; 12]) {
    room[..8].copy_from_slice(&high.to_be_bytes());
    room[8..].copy_from_slice(&(low as u32).to_be_bytes());
}

/// What a kind does not use: its bits in the two numbers of a record. And the least premium, contracts and reports that it may have.
pub struct Unused<const NUMBERS: usize> {
    pub bits: [u64; 2],
    pub least: [u64; NUMBERS],
}

/// Where unit and premium stand in the first number, and contracts, reset, level and the spare bits in the second.
const TRADED: u64 = (1 << 29) - 1;
const TRADED_CONTRACTS: u64 = CONTRACTS << 12;
const RESET: u64 = 3 << 10;
const LEVEL: u64 = 1 << 9;
const SPARE: u64 = LEVEL - 1;

/// Of order, offer and lockout.
static KINDS: [Unused<1>; 3] = [
    Unused { bits: [TRADED, TRADED_CONTRACTS | LEVEL | SPARE], least: [0] },
    Unused { bits: [0, RESET | LEVEL | SPARE], least: [1] },
    Unused { bits: [TRADED, TRADED_CONTRACTS | RESET | SPARE], least: [0] },
];

/// Are the numbers that the kind uses in range, if they fit their fields, and the others 0? All is or-ed together, and nothing branches by the kind.
#[inline]
fn is_good([kind, time, root, _, premium, contracts, _, level]: [u64; 8], high: u64, low: u64) -> bool {
    let Some(Unused { bits, least: [least] }) = KINDS.get(kind as usize) else { return false };
    let bad = (high & bits[0] | low & bits[1] != 0)
        | (time > LAST_TIME)
        | (premium > MOST_PREMIUM)
        | (contracts > MOST_CONTRACTS)
        | (premium < *least)
        | (contracts < *least)
        | (level != 0) & (root != 0);
    !bad
}
