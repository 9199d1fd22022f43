//! Event records of 16 bytes, as two numbers of 64 bits; the premium stands in both. And records moved from one form to the other.

use super::map::*;
use super::records::{self, Unused};
use super::reset::LAST_RESET;

/// The last microsecond of the day, and how many a millisecond has.
const LAST_MICROSECOND: u64 = 86_399_999_999;
const MICROSECONDS: u64 = 1_000;

/// Refusal, kind, time in microseconds, root, unit, premium, contracts, reset, level, identity and reports of so many bytes, and two that are 0.
pub fn read_record16(bytes: &[u8]) -> [u64; 13] {
    let faulty = [16, 0, 0, 0, 0, 0, 0, 0, 0, 0, 0, 0, 0];
    let Ok(record) = <&[u8; 16]>::try_from(bytes) else { return faulty };
    match fields(record) {
        Some([kind, time, root, unit, premium, contracts, reset, level, identity, reports]) => {
            [0, kind, time, root, unit, premium, contracts, reset, level, identity, reports, 0, 0]
        }
        None => faulty,
    }
}

/// The fields of a record, if it is a good one.
#[inline]
fn fields(record: &[u8; 16]) -> Option<[u64; 10]> {
    let whole = u128::from_be_bytes(*record);
    let (high, low) = ((whole >> 64) as u64, whole as u64);
    let (kind, time, root, unit) = (high >> 60, high >> 23 & 0x1F_FFFF_FFFF, high >> 17 & 63, high >> 15 & 3);
    let (premium, contracts) = ((high & 0x7FFF) << 12 | low >> 52, low >> 32 & CONTRACTS);
    let (reset, level, identity, reports) = (low >> 28 & 15, low >> 27 & 1, low >> 11 & 0xFFFF, low >> 6 & 31);
    let numbers = [kind, time, root, unit, premium, contracts, reset, level, identity, reports];
    is_good(numbers, high, low).then_some(numbers)
}

/// The refusal of writing these ten numbers into a room.
pub fn write_record16(numbers: [u64; 10], room: &mut [u8]) -> u64 {
    let [_, _, root, unit, _, _, _, level, identity, _] = numbers;
    let (high, low) = side_by_side(numbers);
    if (root > 63) | (unit > 3) | (level > 1) | (identity > LAST_IDENTITY) | !is_good(numbers, high, low) {
        return 16;
    }
    let Some(room) = room.first_chunk_mut() else { return 1 };
    put(high, low, room);
    0
}

/// The numbers of a record's fields, side by side.
#[inline]
fn side_by_side([kind, time, root, unit, premium, contracts, reset, level, identity, reports]: [u64; 10]) -> (u64, u64) {
    let high = kind << 60 | time << 23 | root << 17 | unit << 15 | premium >> 12;
    let low = premium << 52 | contracts << 32 | reset << 28 | level << 27 | identity << 11 | reports << 6;
    (high, low)
}

/// Puts a record into a room.
#[inline]
fn put(high: u64, low: u64, room: &mut [u8; 16]) {
    room[..8].copy_from_slice(&high.to_be_bytes());
    room[8..].copy_from_slice(&low.to_be_bytes());
}

/// Where root, and unit and the top of the premium stand in the first number; the rest of the premium with the contracts, and the others, in the second.
const ROOT: u64 = 63 << 17;
const TRADED: u64 = (1 << 17) - 1;
const TRADED_LOW: u64 = u64::MAX << 32;
const REPORTED: u64 = CONTRACTS << 32;
const RESET: u64 = 15 << 28;
const LEVEL: u64 = 1 << 27;
const IDENTITY: u64 = LAST_IDENTITY << 11;
const ASKED: u64 = 31 << 6;
const SPARE: u64 = 63;

/// Of order, offer, lockout, sending, report and closing; the least of premium, contracts and reports.
static KINDS: [Unused<3>; 6] = [
    Unused { bits: [TRADED, TRADED_LOW | LEVEL | IDENTITY | ASKED | SPARE], least: [0, 0, 0] },
    Unused { bits: [0, RESET | LEVEL | IDENTITY | ASKED | SPARE], least: [1, 1, 0] },
    Unused { bits: [TRADED, TRADED_LOW | RESET | IDENTITY | ASKED | SPARE], least: [0, 0, 0] },
    Unused { bits: [0, RESET | LEVEL | SPARE], least: [1, 1, 1] },
    Unused { bits: [ROOT | TRADED, TRADED_LOW & !REPORTED | RESET | LEVEL | ASKED | SPARE], least: [0, 1, 0] },
    Unused { bits: [ROOT | TRADED, TRADED_LOW | RESET | LEVEL | ASKED | SPARE], least: [0, 0, 0] },
];

/// Are the numbers that the kind uses in range, if they fit their fields, and the others 0? All is or-ed together, and nothing branches by the kind.
#[inline]
fn is_good([kind, time, root, _, premium, contracts, reset, level, _, reports]: [u64; 10], high: u64, low: u64) -> bool {
    let Some(Unused { bits, least }) = KINDS.get(kind as usize) else { return false };
    let bad = (high & bits[0] | low & bits[1] != 0)
        | (time > LAST_MICROSECOND)
        | (premium > MOST_PREMIUM)
        | (contracts > MOST_CONTRACTS)
        | (reset > LAST_RESET)
        | (reports > MOST_REPORTS)
        | (premium < least[0])
        | (contracts < least[1])
        | (reports < least[2])
        | (level != 0) & (root != 0);
    !bad
}

/// The refusal of moving a record of 12 bytes into a room as one of 16.
pub fn widen(bytes: &[u8], room: &mut [u8]) -> u64 {
    let read = <&[u8; 12]>::try_from(bytes).ok().and_then(records::fields);
    let Some([kind, time, root, unit, premium, contracts, reset, level]) = read else { return 16 };
    let Some(room) = room.first_chunk_mut() else { return 1 };
    let (high, low) = side_by_side([kind, time * MICROSECONDS, root, unit, premium, contracts, reset, level, 0, 0]);
    put(high, low, room);
    0
}

/// The refusal of moving a record of 16 bytes into a room as one of 12.
pub fn narrow(bytes: &[u8], room: &mut [u8]) -> u64 {
    let Some([kind, time, root, unit, premium, contracts, reset, level, ..]) = <&[u8; 16]>::try_from(bytes).ok().and_then(fields) else {
        return 16;
    };
    if kind > 2 || time % MICROSECONDS != 0 || reset > 3 {
        return 20;
    }
    let Some(room) = room.first_chunk_mut() else { return 1 };
    let (high, low) = records::side_by_side([kind, time / MICROSECONDS, root, unit, premium, contracts, reset, level]);
    records::put(high, low, room);
    0
}
