//! Request 8 of document 02: records moved from 12 bytes to 16 and back.

use second::gen::{self, Random};
use second::moving::{narrow, widen};
use second::records;
use second::records16::{self, Record16, CLOSING, LOCKOUT, OFFER, ORDER, REPORT, SENDING};

/// Document 01's example, and the same in 16 bytes.
const OLD: [u8; 12] = [0x40, 0, 0, 0x50, 0, 0x01, 0x11, 0x70, 0, 0x0C, 0x80, 0];
const NEW: [u8; 16] = [0x10, 0, 0, 0x13, 0x88, 0, 0, 0x11, 0x17, 0, 0, 0xC8, 0, 0, 0, 0];

/// The bytes of a good record.
fn bytes(record: Record16) -> [u8; 16] {
    let mut room = [0; 16];
    assert_eq!(records16::write(&record, &mut room).refusal, 0, "{record:?}");
    room
}

/// Asserts that moving back is refused and writes nothing.
fn not_narrowed(bytes: &[u8], refusal: u64) {
    for length in [0, 11, 12, 20] {
        let mut room = vec![7; length];
        assert_eq!(narrow(bytes, &mut room).row(), [refusal, 0, 0, 0, 0], "{bytes:?}");
        assert_eq!(room, vec![7; length]);
    }
}

#[test]
fn the_example_moves_both_ways_and_leaves_the_bytes_behind() {
    let mut room = [7; 19];
    assert_eq!(widen(&OLD, &mut room).row(), [0; 5]);
    assert_eq!((&room[..16], &room[16..]), (&NEW[..], &[7; 3][..]));
    let mut room = [7; 15];
    assert_eq!(narrow(&NEW, &mut room).row(), [0; 5]);
    assert_eq!((&room[..12], &room[12..]), (&OLD[..], &[7; 3][..]));
}

#[test]
fn the_last_millisecond_moves() {
    let old = records::Record { kind: LOCKOUT, time: 86_399_999, root: 63, ..Default::default() };
    let (mut short, mut long, mut back) = ([0; 12], [0; 16], [0; 12]);
    assert_eq!(records::write(&old, &mut short).refusal, 0);
    assert_eq!(widen(&short, &mut long).refusal, 0);
    assert_eq!(records16::read(&long).record, Record16 { kind: LOCKOUT, time: 86_399_999_000, root: 63, ..Record16::default() });
    assert_eq!(narrow(&long, &mut back).refusal, 0);
    assert_eq!(back, short);
}

#[test]
fn refusal_16_is_that_of_its_own_reader_and_comes_first() {
    for faulty in [&OLD[..11], &NEW[..], &[0xFF; 12], &[]] {
        for length in [0, 15, 16, 20] {
            let mut room = vec![7; length];
            assert_eq!(widen(faulty, &mut room).row(), [16, 0, 0, 0, 0]);
            assert_eq!(room, vec![7; length]);
        }
    }
    let mut spare = NEW;
    spare[15] = 1;
    let mut unknown = NEW;
    unknown[0] = 0x60;
    for faulty in [&NEW[..15], &OLD[..], &spare, &unknown, &[]] {
        not_narrowed(faulty, 16);
    }
}

#[test]
fn refusal_1_comes_last() {
    for length in 0..16 {
        let mut room = vec![7; length];
        assert_eq!(widen(&OLD, &mut room).row(), [1, 0, 0, 0, 0]);
        assert_eq!(room, vec![7; length]);
    }
    for length in 0..12 {
        let mut room = vec![7; length];
        assert_eq!(narrow(&NEW, &mut room).row(), [1, 0, 0, 0, 0]);
        assert_eq!(room, vec![7; length]);
    }
}

#[test]
fn refusal_20_for_a_new_kind_a_part_of_a_millisecond_or_a_new_reset() {
    let none = Record16::default();
    let sent = Record16 { kind: SENDING, premium: 1, contracts: 1, reports: 1, ..none };
    for record in [sent, Record16 { kind: REPORT, contracts: 1, ..none }, Record16 { kind: CLOSING, ..none }] {
        not_narrowed(&bytes(record), 20);
    }
    for kind in [ORDER, OFFER, LOCKOUT] {
        let amounts = u64::from(kind == OFFER);
        let old = Record16 { kind, premium: amounts, contracts: amounts, ..none };
        for time in [1, 500, 999, 1_001, 86_399_999_001, 86_399_999_999] {
            not_narrowed(&bytes(Record16 { time, ..old }), 20);
        }
        for time in [0, 1_000, 86_399_999_000] {
            assert_eq!(narrow(&bytes(Record16 { time, ..old }), &mut [0; 12]).refusal, 0);
        }
    }
    for reset in 0..=3 {
        assert_eq!(narrow(&bytes(Record16 { reset, ..none }), &mut [0; 12]).refusal, 0);
    }
    for reset in 4..=6 {
        not_narrowed(&bytes(Record16 { reset, ..none }), 20);
    }
}

#[test]
fn there_and_back_gives_the_same_bytes() {
    let mut random = Random::new(9);
    let mut moved = 0;
    for _ in 0..100_000 {
        let old = gen::bytes12(&mut random);
        let (mut long, mut back) = ([0; 16], [0; 12]);
        let refusal = widen(&old, &mut long).refusal;
        assert_eq!(refusal, records::read(&old).refusal);
        if refusal == 0 {
            moved += 1;
            assert_eq!(records16::read(&long).record.time, 1_000 * records::read(&old).record.time);
            assert_eq!(narrow(&long, &mut back).refusal, 0);
            assert_eq!(back.to_vec(), old);
        }
    }
    assert!(moved > 30_000, "{moved}");
}

#[test]
fn back_and_there_gives_the_same_bytes() {
    let mut random = Random::new(10);
    let mut seen = [0; 3];
    for _ in 0..100_000 {
        let new = gen::bytes16(&mut random);
        let (mut short, mut long) = ([0; 12], [0; 16]);
        match narrow(&new, &mut short).refusal {
            16 => {
                seen[0] += 1;
                assert_eq!(records16::read(&new).refusal, 16);
            }
            20 => {
                seen[1] += 1;
                let record = records16::read(&new).record;
                assert!(record.kind > 2 || !record.time.is_multiple_of(1_000) || record.reset > 3);
            }
            refusal => {
                seen[2] += 1;
                assert_eq!((refusal, widen(&short, &mut long).refusal), (0, 0));
                assert_eq!(long.to_vec(), new);
            }
        }
    }
    assert!(seen.iter().all(|times| *times > 5_000), "{seen:?}");
}
