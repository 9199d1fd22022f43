//! Programs run in folders of their own, and records for them.

use std::fs;
use std::io::Write;
use std::path::PathBuf;
use std::process::{Command, Stdio};

use second::records16::{write, Record16, OFFER, ORDER};

/// A fresh folder for one test.
pub fn folder(name: &str) -> PathBuf {
    let path = PathBuf::from(env!("CARGO_TARGET_TMPDIR")).join(name);
    let _ = fs::remove_dir_all(&path);
    fs::create_dir_all(&path).unwrap();
    path
}

/// A program in a folder, with its ends open.
pub fn program(path: &str, folder: &PathBuf) -> Command {
    let mut command = Command::new(path);
    command.current_dir(folder).stdin(Stdio::piped()).stdout(Stdio::piped()).stderr(Stdio::piped());
    command
}

/// What a program prints for these records, having printed nothing else.
pub fn run(path: &str, folder: &PathBuf, records: Vec<u8>) -> String {
    let mut child = program(path, folder).spawn().unwrap();
    let mut input = child.stdin.take().unwrap();
    let writer = std::thread::spawn(move || {
        let _ = input.write_all(&records);
    });
    let output = child.wait_with_output().unwrap();
    writer.join().unwrap();
    assert!(output.stderr.is_empty());
    assert!(output.status.success());
    String::from_utf8(output.stdout).unwrap()
}

/// The bytes of good records.
pub fn bytes(records: &[Record16]) -> Vec<u8> {
    records
        .iter()
        .flat_map(|record| {
            let mut room = [0; 16];
            assert_eq!(write(record, &mut room).refusal, 0);
            room
        })
        .collect()
}

/// An offer on root 0 and unit 0 at $7, at a millisecond.
pub fn offer(time: u64, contracts: u64) -> Record16 {
    Record16 { kind: OFFER, time: 1_000 * time, premium: 70_000, contracts, ..Record16::default() }
}

/// An order on root 0 without reset, at a millisecond.
pub fn order(time: u64) -> Record16 {
    Record16 { kind: ORDER, time: 1_000 * time, ..Record16::default() }
}
