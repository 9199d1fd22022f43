//! Request 8 of document 02: what each field of a 16-byte record may hold.

mod common;

use common::record16::{both_ways, least, not_written, SENT};
use second::records16::{read, Record16, CLOSING, LOCKOUT, OFFER, ORDER, REPORT, SENDING};

/// One field of a record.
type Field = fn(&mut Record16) -> &mut u64;

#[test]
fn kinds_run_to_5() {
    for kind in 0..=5 {
        both_ways(least(kind));
    }
    for kind in [6, 7, 15, 16, 1 << 32, u64::MAX] {
        not_written(Record16 { kind, ..Record16::default() });
    }
    for kind in 6..16 {
        let mut bytes = [0; 16];
        bytes[0] = kind << 4;
        assert_eq!(read(&bytes).refusal, 16, "kind {kind}");
    }
}

#[test]
fn times_run_to_the_last_microsecond() {
    for kind in 0..=5 {
        both_ways(Record16 { time: 86_399_999_999, ..least(kind) });
        for time in [86_400_000_000, (1 << 37) - 1, 1 << 37, u64::MAX] {
            not_written(Record16 { time, ..least(kind) });
        }
    }
    let mut bytes = both_ways(Record16 { time: 86_399_999_998, ..least(ORDER) });
    bytes[5] |= 0x80;
    assert_eq!(read(&bytes).record.time, 86_399_999_999);
    // Half of 86,400,000,000 is A0E EBB 000 in base 16, and its last bit 0.
    assert_eq!(read(&[0x0A, 0x0E, 0xEB, 0xB0, 0x00, 0, 0, 0, 0, 0, 0, 0, 0, 0, 0, 0]).refusal, 16);
}

#[test]
fn resets_run_to_6() {
    for reset in 0..=6 {
        both_ways(Record16 { reset, ..least(ORDER) });
    }
    for reset in [7, 8, 15, 16, u64::MAX] {
        not_written(Record16 { reset, ..least(ORDER) });
    }
    for reset in 7..16 {
        let mut bytes = [0; 16];
        bytes[12] = reset << 4;
        assert_eq!(read(&bytes).refusal, 16, "reset {reset}");
    }
}

#[test]
fn reports_run_from_1_to_16() {
    for reports in [1, 2, 15, 16] {
        both_ways(Record16 { reports, ..SENT });
    }
    for reports in [0, 17, 31, 32, u64::MAX] {
        not_written(Record16 { reports, ..SENT });
    }
    let mut bytes = both_ways(SENT);
    bytes[15] = 0x40;
    assert_eq!(read(&bytes).refusal, 16, "17 reports");
    bytes[14] &= 0xF8;
    bytes[15] = 0;
    assert_eq!(read(&bytes).refusal, 16, "0 reports");
}

#[test]
fn other_ranges() {
    for kind in [OFFER, SENDING] {
        for premium in [0, 100_000_001, (1 << 27) - 1, 1 << 27, u64::MAX] {
            not_written(Record16 { premium, ..least(kind) });
        }
        not_written(Record16 { unit: 4, ..least(kind) });
    }
    for kind in [OFFER, SENDING, REPORT] {
        both_ways(Record16 { contracts: 1_000_000, ..least(kind) });
        for contracts in [0, 1_000_001, (1 << 20) - 1, 1 << 20, u64::MAX] {
            not_written(Record16 { contracts, ..least(kind) });
        }
    }
    for kind in [SENDING, REPORT, CLOSING] {
        both_ways(Record16 { identity: 65_535, ..least(kind) });
        not_written(Record16 { identity: 65_536, ..least(kind) });
    }
    for kind in [ORDER, OFFER, LOCKOUT, SENDING] {
        both_ways(Record16 { root: 63, ..least(kind) });
        not_written(Record16 { root: 64, ..least(kind) });
    }
    not_written(Record16 { kind: LOCKOUT, level: 2, ..Record16::default() });
}

#[test]
fn unused_fields_are_0() {
    let fields: [(&str, Field); 8] = [
        ("root", |record| &mut record.root),
        ("unit", |record| &mut record.unit),
        ("premium", |record| &mut record.premium),
        ("contracts", |record| &mut record.contracts),
        ("reset", |record| &mut record.reset),
        ("level", |record| &mut record.level),
        ("identity", |record| &mut record.identity),
        ("reports", |record| &mut record.reports),
    ];
    let used: [&[&str]; 6] = [
        &["root", "reset"],
        &["root", "unit", "premium", "contracts"],
        &["root", "level"],
        &["root", "unit", "premium", "contracts", "identity", "reports"],
        &["identity", "contracts"],
        &["identity"],
    ];
    for kind in 0..=5 {
        for (name, field) in fields {
            let mut record = least(kind);
            *field(&mut record) = 1;
            if used[kind as usize].contains(&name) {
                both_ways(record);
            } else {
                not_written(record);
            }
        }
    }
    not_written(Record16 { kind: LOCKOUT, level: 1, root: 1, ..Record16::default() });
}

#[test]
fn spare_bits_are_0() {
    for kind in 0..=5 {
        let bytes = both_ways(least(kind));
        for bit in 0..6 {
            let mut damaged = bytes;
            damaged[15] ^= 1 << bit;
            assert_eq!(read(&damaged).refusal, 16, "kind {kind}, bit {bit}");
        }
    }
}
