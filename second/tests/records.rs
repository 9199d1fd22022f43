//! The record codec, and readings 22 and 23 of it.

use second::records::{read, write, Record, LOCKOUT, OFFER, ORDER};
use second::unit::Unit;

/// The offer of document 01's example.
const EXAMPLE: Record = Record { kind: OFFER, time: 10, root: 0, unit: 0, premium: 70_000, contracts: 200, reset: 0, level: 0 };
/// The bytes of document 01's example.
const EXAMPLE_BYTES: [u8; 12] = [0x40, 0, 0, 0x50, 0, 0x01, 0x11, 0x70, 0, 0x0C, 0x80, 0];

/// Asserts that the writer refuses with 16 and writes nothing.
fn not_written(record: Record) {
    let mut room = [7; 14];
    assert_eq!(write(&record, &mut room).numbers(), [16], "{record:?}");
    assert_eq!(room, [7; 14]);
    assert_eq!(write(&record, &mut []).numbers(), [16]);
}

/// Asserts that the record is written and read back.
fn both_ways(record: Record) {
    let mut room = [7; 14];
    assert_eq!(write(&record, &mut room).numbers(), [0], "{record:?}");
    assert_eq!(room[12..], [7; 2]);
    let answer = read(&room[..12]);
    assert_eq!((answer.refusal, answer.record), (0, record));
}

#[test]
fn example_bytes() {
    let mut room = [0; 12];
    assert_eq!(write(&EXAMPLE, &mut room).numbers(), [0]);
    assert_eq!(room, EXAMPLE_BYTES);
    assert_eq!(read(&EXAMPLE_BYTES).numbers(), [0, 1, 10, 0, 0, 70_000, 200, 0, 0]);
}

#[test]
fn largest_fields() {
    let none = Record::default();
    let time = 86_399_999;
    both_ways(Record { kind: OFFER, time, root: 63, unit: 3, premium: 100_000_000, contracts: 1_000_000, ..none });
    both_ways(Record { kind: ORDER, time, root: 63, reset: 3, ..none });
    both_ways(Record { kind: LOCKOUT, time, root: 63, ..none });
    both_ways(Record { kind: LOCKOUT, time, level: 1, ..none });
    both_ways(none);
}

#[test]
fn length_is_twelve() {
    for length in [0, 1, 11, 13, 24] {
        let mut bytes = EXAMPLE_BYTES.to_vec();
        bytes.resize(length, 0);
        assert_eq!(read(&bytes).numbers(), [16, 0, 0, 0, 0, 0, 0, 0, 0]);
    }
}

#[test]
fn room_is_checked_last() {
    for length in 0..12 {
        let mut room = vec![7; length];
        assert_eq!(write(&EXAMPLE, &mut room).numbers(), [1]);
        assert_eq!(room, vec![7; length]);
    }
}

#[test]
fn kind_3_and_wide_numbers() {
    let none = Record::default();
    not_written(Record { kind: 3, ..none });
    not_written(Record { kind: 4, ..none });
    not_written(Record { kind: u64::MAX, ..none });
    not_written(Record { time: 86_400_000, ..none });
    not_written(Record { time: 1 << 27, ..none });
    not_written(Record { root: 64, ..none });
    for reset in [4, 5, 6, 7, u64::MAX] {
        not_written(Record { reset, ..none });
    }
    not_written(Record { kind: LOCKOUT, level: 2, ..none });
    not_written(Record { unit: 4, ..EXAMPLE });
    not_written(Record { premium: u64::MAX, ..EXAMPLE });
    let mut bytes = EXAMPLE_BYTES;
    bytes[0] |= 0x80;
    assert_eq!(read(&bytes).refusal, 16);
}

#[test]
fn ranges_of_an_offer() {
    for (premium, contracts) in [(0, 1), (100_000_001, 1), (1, 0), (1, 1_000_001)] {
        not_written(Record { premium, contracts, ..EXAMPLE });
    }
}

#[test]
fn unused_fields_are_0() {
    let none = Record::default();
    for kind in [ORDER, LOCKOUT] {
        not_written(Record { kind, unit: 1, ..none });
        not_written(Record { kind, premium: 1, ..none });
        not_written(Record { kind, contracts: 1, ..none });
    }
    not_written(Record { kind: ORDER, level: 1, ..none });
    not_written(Record { kind: LOCKOUT, reset: 1, ..none });
    not_written(Record { reset: 1, ..EXAMPLE });
    not_written(Record { level: 1, ..EXAMPLE });
}

#[test]
fn reading_22_spare_bits_and_unknown_roots() {
    for bit in 0..9 {
        let mut bytes = EXAMPLE_BYTES;
        bytes[11 - bit / 8] ^= 1 << (bit % 8);
        assert_eq!(read(&bytes).refusal, 16);
    }
    both_ways(Record { root: 63, ..EXAMPLE });
    let mut unit = Unit::new();
    assert_eq!(unit.arm(b"A,abs_vol,X,1").refusal, 0);
    assert_eq!(unit.offer(10, 63, 0, 70_000, 200).refusal, 13);
}

#[test]
fn reading_23_root_of_a_firm_lockout() {
    not_written(Record { kind: LOCKOUT, level: 1, root: 1, ..Record::default() });
    let mut unit = Unit::new();
    assert_eq!(unit.arm(b"A,abs_vol,X,1\nA,abs_vol,Y,1").refusal, 0);
    assert_eq!(unit.lockout(0, 1, 1).refusal, 13);
}

#[test]
fn every_single_bit_is_read_back_or_refused() {
    for start in [EXAMPLE_BYTES, [0; 12], [0x80, 0, 0, 0, 0, 0, 0, 0, 0, 0, 0, 0]] {
        for bit in 0..96 {
            let mut bytes = start;
            bytes[bit / 8] ^= 0x80 >> (bit % 8);
            let answer = read(&bytes);
            if answer.refusal == 0 {
                let mut room = [0; 12];
                assert_eq!(write(&answer.record, &mut room).refusal, 0);
                assert_eq!(room, bytes);
            } else {
                assert_eq!(answer.numbers(), [16, 0, 0, 0, 0, 0, 0, 0, 0]);
            }
        }
    }
}
