//! Event records of both lengths: the proved library and the second program read, write and move alike; and the comparison itself is tried on wrong
//! versions.

use native::records::forms::{NEW, OLD};
use native::records::{compare, compare_bytes, Calls, BY_HAND, LIBRARY, SECOND};
use second::gen::Random;

/// How many rounds there are: enough for five million calls to the library.
const ROUNDS: u64 = 800_000;
const CALLS: u64 = 5_000_000;

#[test]
fn the_library_reads_writes_and_moves_alike() {
    let seen = compare(ROUNDS, 3, LIBRARY, SECOND).unwrap_or_else(|difference| panic!("{difference}"));
    println!("{seen}");
    assert!(seen.calls >= CALLS, "only {} calls", seen.calls);
    assert!(seen.missing().is_empty(), "never came up: {:?}", seen.missing());
}

#[test]
fn records_are_read_written_and_moved_alike_by_hand() {
    let seen = compare(ROUNDS / 8, 5, BY_HAND, SECOND).unwrap_or_else(|difference| panic!("{difference}"));
    assert!(seen.missing().is_empty(), "never came up: {:?}", seen.missing());
}

#[test]
fn each_single_bit_of_a_record_is_judged_alike() {
    let mut random = Random::new(11);
    for form in [&OLD, &NEW] {
        let mut refused = [0, 0];
        for _ in 0..500 {
            let mut bytes = form.packed(&form.valid(&mut random), 0);
            for bit in 0..8 * form.bytes {
                bytes[bit / 8] ^= 1 << (bit % 8);
                let judged = compare_bytes(&bytes, form, LIBRARY, SECOND).unwrap_or_else(|difference| panic!("{difference}"));
                refused[usize::from(judged == 16)] += 1;
                bytes[bit / 8] ^= 1 << (bit % 8);
            }
        }
        assert!(refused.iter().all(|count| *count > 5_000), "{refused:?}");
    }
}

#[test]
fn the_papers_record_is_read_written_and_moved() {
    let old = [0x40, 0, 0, 0x50, 0, 1, 0x11, 0x70, 0, 0x0C, 0x80, 0];
    let event = [1, 10, 0, 0, 70_000, 200, 0, 0];
    // kind 1 in 4 bits, 10,000 microseconds in 37, root and unit in 8, 70,000 in 27, 200 in 20, 32 bits of zeros
    let new = (1u128 << 124 | 10_000 << 87 | 70_000 << 52 | 200 << 32).to_be_bytes();
    let event16 = [1, 10_000, 0, 0, 70_000, 200, 0, 0, 0, 0];
    for calls in [LIBRARY, SECOND, BY_HAND] {
        let (mut room, mut room16) = ([0; 12], [0; 16]);
        assert_eq!(((calls.write)(event, &mut room), room), ([0; 5], old));
        assert_eq!(((calls.write16)(event16, &mut room16), room16), ([0; 5], new));
        assert_eq!((calls.read)(&old)[..], [&[0][..], &event].concat());
        assert_eq!((calls.read16)(&new)[..], [&[0][..], &event16, &[0, 0]].concat());
        (room, room16) = ([0; 12], [0; 16]);
        assert_eq!(((calls.widen)(&old, &mut room16), room16), ([0; 5], new));
        assert_eq!(((calls.narrow)(&new, &mut room), room), ([0; 5], old));
    }
}

/// A wrong version is found.
fn is_found(wrong: Calls) {
    assert!(compare(20_000, 1, wrong, SECOND).is_err());
}

#[test]
fn wrong_readers_are_found() {
    is_found(Calls { read: &|bytes| (SECOND.read)(&with_last_byte(bytes, 12, 0xFE)), ..SECOND });
    is_found(Calls { read16: &|bytes| (SECOND.read16)(&with_last_byte(bytes, 16, 0xDF)), ..SECOND });
    is_found(Calls { read: &|bytes| (SECOND.read)(&bytes[..bytes.len().min(12)]), ..SECOND });
    is_found(Calls { read16: &|bytes| (SECOND.read16)(&bytes[..bytes.len().min(16)]), ..SECOND });
    is_found(Calls { read16: &|bytes| (SECOND.read16)(bytes).map(|number| if number == 86_399_999_999 { 0 } else { number }), ..SECOND });
}

/// Bytes of a length with some bits of the last one cleared; others as they are.
fn with_last_byte(bytes: &[u8], length: usize, mask: u8) -> Vec<u8> {
    let mut bytes = bytes.to_vec();
    if bytes.len() == length {
        bytes[length - 1] &= mask;
    }
    bytes
}

#[test]
fn wrong_writers_are_found() {
    is_found(Calls {
        write: &|event, room| {
            let row = (SECOND.write)(event, room);
            room.iter_mut().skip(12).for_each(|byte| *byte = 0);
            row
        },
        ..SECOND
    });
    is_found(Calls { write: &|event, room| if room.len() < 12 { [1, 0, 0, 0, 0] } else { (SECOND.write)(event, room) }, ..SECOND });
    // takes the low bits of an identity too wide for its field, and a seventh reset for none
    is_found(Calls {
        write16: &|mut event, room| {
            event[8] &= 0xFFFF;
            (SECOND.write16)(event, room)
        },
        ..SECOND
    });
    is_found(Calls {
        write16: &|mut event, room| {
            event[6] %= 7;
            (SECOND.write16)(event, room)
        },
        ..SECOND
    });
}

#[test]
fn wrong_movers_are_found() {
    // drops the microseconds of a time that is no whole millisecond
    is_found(Calls {
        narrow: &|bytes, room| {
            let [refusal, event @ .., _, _] = (SECOND.read16)(bytes);
            let mut whole = [0; 16];
            if refusal == 0 {
                let mut event = event;
                event[1] -= event[1] % 1_000;
                (SECOND.write16)(event, &mut whole);
                return (SECOND.narrow)(&whole, room);
            }
            (SECOND.narrow)(bytes, room)
        },
        ..SECOND
    });
    // asks for room before it looks whether the record fits
    is_found(Calls {
        narrow: &|bytes, room| {
            if room.len() < 12 && (SECOND.read16)(bytes)[0] == 0 {
                [1, 0, 0, 0, 0]
            } else {
                (SECOND.narrow)(bytes, room)
            }
        },
        ..SECOND
    });
    // keeps the milliseconds as they are
    is_found(Calls {
        widen: &|bytes, room| {
            let row = (SECOND.widen)(bytes, room);
            let [_, kind, time, root, unit, premium, contracts, reset, level] = (SECOND.read)(bytes);
            if row[0] == 0 {
                (SECOND.write16)([kind, time, root, unit, premium, contracts, reset, level, 0, 0], room);
            }
            row
        },
        ..SECOND
    });
}
