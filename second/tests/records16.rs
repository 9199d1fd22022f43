//! Request 8 of document 02: the records of 16 bytes, read and written.

mod common;

use common::record16::{both_ways, least, SENT};
use second::gen::{self, Random};
use second::records16::{read, write, Record16, CLOSING, LOCKOUT, OFFER, ORDER, REPORT};

/// Document 01's offer with its time in microseconds.
const EXAMPLE: Record16 =
    Record16 { kind: OFFER, time: 10_000, root: 0, unit: 0, premium: 70_000, contracts: 200, reset: 0, level: 0, identity: 0, reports: 0 };
/// Its bytes, by hand: 1, half of 10,000 in 36 bits, that number's last bit with root, unit and seven zeros, 70,000 and 200 in 20 bits each, 32 zeros.
const EXAMPLE_BYTES: [u8; 16] = [0x10, 0, 0, 0x13, 0x88, 0, 0, 0x11, 0x17, 0x00, 0x00, 0xC8, 0, 0, 0, 0];
#[test]
fn example_bytes() {
    assert_eq!(both_ways(EXAMPLE), EXAMPLE_BYTES);
    assert_eq!(read(&EXAMPLE_BYTES).numbers(), [0, 1, 10_000, 0, 0, 70_000, 200, 0, 0, 0, 0, 0, 0]);
}

#[test]
fn where_each_field_stands() {
    let field = |byte: usize, bits: u8| {
        let mut bytes = [0; 16];
        bytes[byte] = bits;
        bytes
    };
    let order = Record16::default();
    assert_eq!(both_ways(Record16 { kind: CLOSING, ..order }), field(0, 0x50));
    assert_eq!(both_ways(Record16 { time: 2, ..order }), field(4, 0x01));
    assert_eq!(both_ways(Record16 { time: 1, ..order }), field(5, 0x80));
    assert_eq!(both_ways(Record16 { root: 1, ..order }), field(5, 0x02));
    assert_eq!(both_ways(Record16 { reset: 6, ..order }), field(12, 0x60));
    assert_eq!(both_ways(Record16 { kind: LOCKOUT, level: 1, ..order })[12], 0x08);
    assert_eq!(both_ways(Record16 { kind: CLOSING, identity: 65_535, ..order })[12..], [0x07, 0xFF, 0xF8, 0]);
    assert_eq!(both_ways(SENT)[14..], [0xFC, 0x00], "reports 10000 in binary after the identity's last five bits");
    assert_eq!(both_ways(Record16 { reports: 1, ..SENT })[14..], [0xF8, 0x40]);
    assert_eq!(both_ways(Record16 { unit: 2, premium: 1, contracts: 1, ..least(OFFER) })[5..12], [0x01, 0, 0, 0, 0x10, 0, 0x01]);
}

#[test]
fn length_is_sixteen() {
    for length in [0, 1, 12, 15, 17, 32] {
        let mut bytes = EXAMPLE_BYTES.to_vec();
        bytes.resize(length, 0);
        assert_eq!(read(&bytes).numbers(), [16, 0, 0, 0, 0, 0, 0, 0, 0, 0, 0, 0, 0]);
    }
}

#[test]
fn room_is_checked_last() {
    for length in 0..16 {
        let mut room = vec![7; length];
        assert_eq!(write(&EXAMPLE, &mut room).row(), [1, 0, 0, 0, 0]);
        assert_eq!(room, vec![7; length]);
    }
}

#[test]
fn reading_after_writing_and_writing_after_reading_change_nothing() {
    let mut random = Random::new(8);
    let mut seen = [0; 2];
    for _ in 0..200_000 {
        let bytes = gen::bytes16(&mut random);
        let answer = read(&bytes);
        seen[usize::from(answer.refusal == 0)] += 1;
        if answer.refusal == 0 {
            assert_eq!(both_ways(answer.record).to_vec(), bytes);
        } else {
            assert_eq!(answer.numbers(), [16, 0, 0, 0, 0, 0, 0, 0, 0, 0, 0, 0, 0]);
        }
        both_ways(gen::record16(&mut random));
    }
    assert!(seen.iter().all(|times| *times > 50_000), "{seen:?}");
}

#[test]
fn every_single_bit_is_read_back_or_refused() {
    for start in [EXAMPLE, SENT, least(ORDER), least(LOCKOUT), least(REPORT), least(CLOSING)].map(both_ways) {
        for bit in 0..128 {
            let mut bytes = start;
            bytes[bit / 8] ^= 0x80 >> (bit % 8);
            let answer = read(&bytes);
            assert!(answer.refusal == 16 || both_ways(answer.record) == bytes, "bit {bit}");
        }
    }
}
