//! The program: its lines, reading 24, and request 8's records.

mod common;

use std::fs;
use std::io::{Read, Write};
use std::path::PathBuf;

use common::runs::{self, bytes, folder, offer, order, program};
use second::records16::{Record16, CLOSING, LOCKOUT, ORDER, REPORT, SENDING};

/// The program.
const SECOND: &str = env!("CARGO_BIN_EXE_second");

/// What the program prints for these records, having printed nothing else.
fn run(folder: &PathBuf, records: Vec<u8>) -> String {
    runs::run(SECOND, folder, records)
}

#[test]
fn example_run() {
    let folder = folder("example");
    fs::write(folder.join("profile"), "ABCD,abs_vol,XYZ,1000,0").unwrap();
    let printed = run(&folder, bytes(&[offer(0, 950), offer(10, 200), order(20)]));
    assert_eq!(printed, "armed ABCD 1 1\n1 0 0 950 0 0\n2 0 0 50 1 0\n3 0 2 0 0 0\n");
}

#[test]
fn all_kinds_and_unknown_root() {
    let folder = folder("kinds");
    fs::write(folder.join("profile"), "A,abs_vol,X,10\nA,abs_vol,,10,,T\n").unwrap();
    let none = Record16::default();
    let records = bytes(&[
        Record16 { kind: LOCKOUT, time: 1_999, level: 1, ..none },
        offer(2, 5),
        Record16 { kind: ORDER, time: 3_500, reset: 2, ..none },
        Record16 { root: 1, ..offer(4, 5) },
        offer(2, 5),
        offer(5, 50),
    ]);
    let printed = run(&folder, records);
    assert_eq!(printed, "armed A 2 1\n1 0 0 0 0 0\n2 0 1 0 0 0\n3 0 0 0 0 0\n4 13 0 0 0 0\n5 12 0 0 0 0\n6 0 0 10 1 1\n");
}

#[test]
fn sendings_reports_and_closings() {
    let folder = folder("away");
    fs::write(folder.join("profile"), "A,abs_vol,X,10").unwrap();
    let sent = Record16 { kind: SENDING, premium: 1, contracts: 12, identity: 65_535, reports: 2, ..Record16::default() };
    let report = Record16 { kind: REPORT, contracts: 4, identity: 65_535, ..Record16::default() };
    let close = Record16 { kind: CLOSING, identity: 65_535, ..Record16::default() };
    let records = [sent, sent, report, Record16 { contracts: 8, ..report }, report, Record16 { identity: 1, ..sent }, close, close];
    let printed = run(&folder, bytes(&records));
    let lines = ["0 0 0 0 0", "18 0 0 0 0", "0 0 4 0 0", "0 0 8 1 0", "19 0 0 0 0", "0 2 0 0 0", "0 0 0 0 0", "18 0 0 0 0"];
    let expected: String = (1..).zip(lines).map(|(place, line)| format!("{place} {line}\n")).collect();
    assert_eq!(printed, format!("armed A 1 1\n{expected}"));
}

#[test]
fn resets_without_counts() {
    let folder = folder("lifting");
    fs::write(folder.join("profile"), "A,abs_vol,X,10").unwrap();
    let records = bytes(&[offer(0, 10), order(0), Record16 { reset: 4, ..order(0) }, offer(0, 1)]);
    assert_eq!(run(&folder, records), "armed A 1 1\n1 0 0 10 1 0\n2 0 2 0 0 0\n3 0 0 0 0 0\n4 0 0 0 1 0\n");
}

#[test]
fn the_rules_count_in_whole_milliseconds() {
    let folder = folder("whole");
    fs::write(folder.join("profile"), "A,rate_vol,X,10,100").unwrap();
    let at = |time: u64| Record16 { time, ..offer(0, 6) };
    // 1,999 us and then 1,001 us are both 1 ms; a window of 100 ms from 1 ms on ends with 101 ms, however late in 1 ms it began.
    let printed = run(&folder, bytes(&[at(1_999), at(1_001), Record16 { reset: 4, ..order(2) }, at(1_999), at(100_999), at(101_000)]));
    let expected = "1 0 0 6 0 0\n2 0 0 4 1 0\n3 0 0 0 0 0\n4 12 0 0 0 0\n5 0 0 0 1 0\n6 0 2 0 0 0\n";
    assert_eq!(printed, format!("armed A 1 1\n{expected}"));
    let printed = run(&folder, bytes(&[at(1_999), at(101_000), at(86_399_999_999)]));
    assert_eq!(printed, "armed A 1 1\n1 0 0 6 0 0\n2 0 0 6 0 0\n3 0 0 6 0 0\n");
}

#[test]
fn records_of_12_bytes_are_not_taken() {
    let folder = folder("old");
    fs::write(folder.join("profile"), "ABCD,abs_vol,XYZ,1000,0").unwrap();
    let old = vec![0x40, 0, 0, 0x50, 0, 0x01, 0x11, 0x70, 0, 0x0C, 0x80, 0];
    assert_eq!(run(&folder, old), "armed ABCD 1 1\n1 16 0 0 0 0\n");
}

#[test]
fn reading_24_goes_on_after_16() {
    let folder = folder("faulty");
    fs::write(folder.join("profile"), "A,abs_vol,X,10").unwrap();
    let mut records = vec![0xFF; 16];
    records.extend(bytes(&[offer(0, 4)]));
    records.extend([0; 15]);
    let printed = run(&folder, records);
    assert_eq!(printed, "armed A 1 1\n1 16 0 0 0 0\n2 0 0 4 0 0\n3 16 0 0 0 0\n");
}

#[test]
fn reading_24_no_profile() {
    let empty = folder("missing");
    assert_eq!(run(&empty, bytes(&[order(0)])), "refused 5 0\n");
    let unreadable = folder("unreadable");
    fs::create_dir(unreadable.join("profile")).unwrap();
    assert_eq!(run(&unreadable, Vec::new()), "refused 5 0\n");
}

#[test]
fn reading_24_longest_profile() {
    let folder = folder("longest");
    let mut text = b"A,abs_vol,X,10,".to_vec();
    text.resize(65_536, b'x');
    fs::write(folder.join("profile"), &text).unwrap();
    assert_eq!(run(&folder, Vec::new()), "armed A 1 1\n");
    text.push(b'\n');
    fs::write(folder.join("profile"), &text).unwrap();
    assert_eq!(run(&folder, Vec::new()), "refused 5 0\n");
}

#[test]
fn refused_with_a_line() {
    let folder = folder("line");
    fs::write(folder.join("profile"), "A,abs_vol,X,10\n\n").unwrap();
    assert_eq!(run(&folder, bytes(&[order(0)])), "refused 6 2\n");
}

#[test]
fn a_closed_output_ends_it_quietly() {
    let folder = folder("closed");
    fs::write(folder.join("profile"), "A,abs_vol,X,10").unwrap();
    let mut child = program(SECOND, &folder).spawn().unwrap();
    drop(child.stdout.take());
    let mut input = child.stdin.take().unwrap();
    let record = bytes(&[order(0)]);
    // The pipe breaks once the program has ended.
    for _ in 0..1_000_000 {
        if input.write_all(&record).is_err() {
            break;
        }
    }
    drop(input);
    let mut error = String::new();
    child.stderr.take().unwrap().read_to_string(&mut error).unwrap();
    assert!(child.wait().unwrap().success());
    assert_eq!(error, "");
}
