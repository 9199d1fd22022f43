//! The records a second of whole programs.

use std::fs::{self, File};
use std::path::{Path, PathBuf};
use std::process::Command;

use second::records16::{self, Record16, BYTES, OFFER, ORDER};

/// How many records the programs are given, and how many runs each has.
const GIVEN: u64 = 100_000;
const RUNS: usize = 15;

/// Orders and offers in turn, 600 ms apart: with windows of a minute the log holds 50 entries.
fn given() -> Vec<u8> {
    let event = |n: u64| match n % 2 {
        0 => Record16 { kind: ORDER, time: 600_000 * n, ..Record16::default() },
        _ => Record16 { kind: OFFER, time: 600_000 * n + 999, unit: n / 2 % 4, premium: 70_000, contracts: 5, ..Record16::default() },
    };
    let mut bytes = vec![0; BYTES * GIVEN as usize];
    let rooms = bytes.chunks_mut(BYTES);
    (0..GIVEN).zip(rooms).for_each(|(n, room)| assert_eq!(records16::write(&event(n), room).refusal, 0));
    bytes
}

/// A program, by its path and its words.
pub struct Program {
    pub name: &'static str,
    pub path: PathBuf,
    pub words: &'static [&'static str],
}

/// The records a second of processor time of each program that is there, over runs that take turns; all have to print the same.
pub fn program_rates(programs: &[Program], profile: &[u8], folder: &Path) -> Vec<(&'static str, f64)> {
    fs::write(folder.join("profile"), profile).expect("a profile");
    fs::write(folder.join("records"), given()).expect("records");
    let there: Vec<&Program> = programs.iter().filter(|program| program.path.exists()).collect();
    let mut spent = vec![0; there.len()];
    let mut said: Option<Vec<u8>> = None;
    for place in (0..there.len()).cycle().take(RUNS * there.len()) {
        spent[place] += run(there[place], folder);
        let lines = fs::read(folder.join("lines")).expect("lines");
        assert_eq!(lines.iter().filter(|byte| **byte == b'\n').count() as u64, GIVEN + 1, "{}", there[place].name);
        assert!(said.get_or_insert_with(|| lines.clone()) == &lines, "{} prints something else", there[place].name);
    }
    let rate = |spent: u64| GIVEN as f64 * RUNS as f64 * TICKS / spent as f64;
    there.iter().zip(spent).map(|(program, spent)| (program.name, rate(spent))).collect()
}

/// The processor time of one run, in ticks.
fn run(program: &Program, folder: &Path) -> u64 {
    let (input, output) = (File::open(folder.join("records")).expect("records"), File::create(folder.join("lines")).expect("lines"));
    let before = children_ticks();
    let status = Command::new(&program.path).args(program.words).current_dir(folder).stdin(input).stdout(output).status();
    assert!(status.is_ok_and(|status| status.success()), "{} runs", program.name);
    children_ticks() - before
}

/// Ticks of processor time in a second.
const TICKS: f64 = 100.0;

/// The processor time of the programs that this one has run so far, its own and the system's on its behalf: what Linux tells as fields 16 and 17.
fn children_ticks() -> u64 {
    let stat = fs::read_to_string("/proc/self/stat").expect("what Linux tells of this process");
    let after_name = stat.rsplit(')').next().unwrap_or("");
    after_name.split_whitespace().skip(13).take(2).map(|ticks| ticks.parse::<u64>().expect("ticks")).sum()
}
