//! The evening table: the account of a day's records, with names.

mod common;

use std::fs;
use std::path::PathBuf;

use common::runs::{self, bytes, folder, offer, order};
use second::figures::Day;
use second::gen;
use second::program;
use second::records16::{Record16, BYTES, LOCKOUT, REPORT, SENDING};
use second::unit::Unit;

/// What the program prints for these records, having printed nothing else.
fn run(folder: &PathBuf, records: Vec<u8>) -> String {
    runs::run(env!("CARGO_BIN_EXE_second-evening"), folder, records)
}

#[test]
fn the_example_of_document_01() {
    let folder = folder("evening-example");
    fs::write(folder.join("profile"), "ABCD,abs_vol,XYZ,1000,0").unwrap();
    let printed = run(&folder, bytes(&[offer(0, 950), offer(10, 200), order(20)]));
    assert_eq!(printed, "XYZ 0 1 2 1000 70000000 1 1 0\nABCD 0 1 2 1000 70000000 1 0 0\n");
}

#[test]
fn a_day_of_two_roots() {
    let folder = folder("evening-roots");
    fs::write(folder.join("profile"), "AB,abs_vol,X,10\nAB,abs_vol,,25,,T\nAB,abs_vol,YY,20,,,P,T\n").unwrap();
    let none = Record16::default();
    let sent = Record16 { kind: SENDING, root: 1, unit: 3, premium: 1, contracts: 12, identity: 65_535, reports: 2, ..none };
    let records = [
        offer(0, 4),
        sent,
        Record16 { kind: REPORT, identity: 65_535, contracts: 12, ..none },
        Record16 { root: 1, unit: 3, ..offer(1, 9) },
        order(1),
        Record16 { root: 1, ..order(1) },
        Record16 { root: 1, ..offer(1, 9) },
        Record16 { kind: LOCKOUT, time: 2_000, level: 1, ..none },
        Record16 { root: 1, identity: 7, time: 2_500, ..sent },
    ];
    // X: an order accepted; 4 at $7. YY: a sending accepted, 12 back from away, 8 of 9 granted at $7 and a trip; then an order and a sending rejected.
    let expected = "X 1 0 1 4 280000 0 0 0\nYY 1 2 1 8 560000 1 1 1\nAB 2 2 2 12 840000 1 0 1\n";
    assert_eq!(run(&folder, bytes(&records)), expected);
}

#[test]
fn faulty_and_refused_records_count_nowhere_and_print_nothing() {
    let folder = folder("evening-faulty");
    fs::write(folder.join("profile"), "A,abs_vol,X,10").unwrap();
    let mut records = vec![0xFF; 16];
    records.extend(bytes(&[order(5), order(4), Record16 { root: 1, ..order(5) }]));
    records.extend([0; 15]);
    assert_eq!(run(&folder, records), "X 1 0 0 0 0 0 0 0\nA 1 0 0 0 0 0 0 0\n");
    assert_eq!(run(&folder, Vec::new()), "X 0 0 0 0 0 0 0 0\nA 0 0 0 0 0 0 0 0\n");
}

#[test]
fn firm_rules_alone_have_the_firms_line_alone() {
    let folder = folder("evening-firm");
    fs::write(folder.join("profile"), "ABCD,abs_vol,,10,,T").unwrap();
    assert_eq!(run(&folder, bytes(&[order(0), offer(0, 1)])), "ABCD 0 0 0 0 0 0 0 0\n");
}

#[test]
fn a_refused_profile_prints_so_and_stops() {
    let empty = folder("evening-missing");
    assert_eq!(run(&empty, bytes(&[order(0)])), "refused 5 0\n");
    let folder = folder("evening-line");
    fs::write(folder.join("profile"), "A,abs_vol,X,10\nB,abs_vol,X,10").unwrap();
    assert_eq!(run(&folder, bytes(&[order(0)])), "refused 7 2\n");
    let mut text = b"A,abs_vol,X,10,".to_vec();
    text.resize(65_537, b'x');
    fs::write(folder.join("profile"), &text).unwrap();
    assert_eq!(run(&folder, Vec::new()), "refused 5 0\n");
}

#[test]
fn an_event_refused_with_21_is_not_applied() {
    let folder = folder("evening-most");
    fs::write(folder.join("profile"), "A,abs_count,X,10001\nA,abs_count,Y,1").unwrap();
    let largest = Record16 { premium: 100_000_000, ..offer(0, 1_000_000) };
    let mut records = bytes(&[largest; 10_000]);
    let table = |x: &str, y: &str, firm: &str| format!("X {x}\nY {y}\nA {firm}\n");
    let full = "0 0 10000 10000000000 1000000000000000000 0 0 0";
    assert_eq!(run(&folder, records.clone()), table(full, "0 0 0 0 0 0 0 0", full));
    // Each of these would reach its limit and trip; the order at the end is accepted, so neither did, nor was the clock set.
    records.extend(bytes(&[largest, offer(1, 1), Record16 { root: 1, ..offer(2, 1) }, order(0), Record16 { root: 1, ..order(0) }]));
    let with_order = |orders: u64| format!("{orders}{}", &full[1..]);
    assert_eq!(run(&folder, records), table(&with_order(1), "1 0 0 0 0 0 0 0", &with_order(2)));
}

#[test]
fn random_days_print_what_the_answers_define() {
    let folder = folder("evening-random");
    let mut lines = 0;
    for seed in 0..40 {
        let text = gen::profile(seed);
        fs::write(folder.join("profile"), &text).unwrap();
        let records = gen::records16(seed, 600, &text);
        let mut unit = Unit::new();
        let armed = unit.arm(&text);
        let list: Vec<_> =
            records.chunks(BYTES).filter_map(|bytes| program::event(bytes).ok()).map(|event| (event, event.run(&mut unit))).collect();
        let printed = run(&folder, records.clone());
        let Some(state) = &unit.armed else {
            assert_eq!(printed, format!("refused {} {}\n", armed.refusal, armed.line));
            continue;
        };
        let figures = Day { began: &[], list: &list }.figures();
        let line = |(name, row): (&Vec<u8>, &[u64])| {
            let row: Vec<String> = row.iter().map(u64::to_string).collect();
            format!("{} {}\n", String::from_utf8_lossy(name), row.join(" "))
        };
        let mut expected: String = state.profile.roots.iter().zip(figures.chunks(8)).map(line).collect();
        expected += &line((&state.profile.firm, &figures[512..]));
        assert_eq!(printed, expected, "seed {seed}");
        lines += printed.lines().count();
    }
    assert!(lines > 80, "{lines}");
}
