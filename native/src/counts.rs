//! Instruction counts by valgrind's callgrind, which are the same in every run.

use std::fs;
use std::hint::black_box;
use std::path::Path;
use std::process::Command;

use crate::calls::{run_hand, run_library};
use crate::lines::readings::{offers, orders, Readings};
use crate::lines::{lines, no_account, Line};
use crate::measure::pass;
use crate::records::rounds::{rounds, RECORDS};

/// Runs a line's call on a memory, an account and a room.
type Who = fn(&Line, &mut [u64], &mut [u64], &mut [u8]);

/// What is counted on each line.
const WHO: [Who; 4] = [nothing, plain_pass, library, hand];
/// How many calls are counted for each.
const CALLS: u64 = 20;

fn nothing(line: &Line, _: &mut [u64], _: &mut [u64], _: &mut [u8]) {
    black_box(&line.call);
}

fn plain_pass(_: &Line, m: &mut [u64], _: &mut [u64], _: &mut [u8]) {
    black_box(pass(m));
}

fn library(line: &Line, m: &mut [u64], account: &mut [u64], room: &mut [u8]) {
    black_box(run_library(black_box(&line.call), m, account, room));
}

fn hand(line: &Line, m: &mut [u64], account: &mut [u64], room: &mut [u8]) {
    black_box(run_hand(black_box(&line.call), m, account, room));
}

/// The function whose instructions are counted.
#[no_mangle]
#[inline(never)]
pub fn mbrumzheg_counted(work: &mut dyn FnMut()) {
    work();
    // a call and no jump, so that the count ends with it
    black_box(work);
}

/// The function after which the count so far is written down.
#[no_mangle]
#[inline(never)]
pub extern "C" fn mbrumzheg_counted_all(who: usize) {
    black_box(who);
}

/// Counts a line's calls by each of these, and writes each count down.
fn count(line: &Line, ways: &[Who]) {
    for (who, way) in ways.iter().enumerate() {
        let (mut m, mut account, mut room) = (line.state.clone(), no_account(), line.call.room());
        for _ in 0..CALLS {
            m.copy_from_slice(&line.state);
            account.fill(0);
            let call = black_box(way);
            mbrumzheg_counted(&mut || call(line, black_box(&mut m), black_box(&mut account), black_box(&mut room)));
        }
        mbrumzheg_counted_all(black_box(who));
    }
}

/// What runs under callgrind: every call of every line.
pub fn run_counted() {
    // made first, since what is made between two counts may be counted too
    let all_rounds = rounds();
    lines().iter().for_each(|line| count(line, &WHO));
    for rounds in all_rounds {
        let [nothing, library, _, by_hand] = rounds.ways;
        for (who, mut round) in [nothing, library, by_hand].into_iter().enumerate() {
            mbrumzheg_counted(&mut round);
            mbrumzheg_counted_all(black_box(who));
        }
    }
}

/// What runs under callgrind to count how far the log is read.
pub fn run_readings() {
    for Readings { short, one, all } in [orders(), offers()] {
        [short, one, all].iter().for_each(|line| count(line, &[library]));
    }
}

/// What was counted.
pub struct Counts {
    /// For each line: a plain pass, the library and the hand-written call.
    pub lines: Vec<(Line, [u64; 3])>,
    /// For each of what may be done with a record: the library and the hand-written call.
    pub records: Vec<(&'static str, [u64; 2])>,
}

/// Is there a valgrind to count with?
pub fn is_there() -> bool {
    Command::new("valgrind").arg("--version").output().is_ok_and(|output| output.status.success())
}

/// The counts that a program writes down, started with a word under callgrind.
fn counted(program: &Path, word: &str, folder: &Path) -> impl FnMut() -> u64 {
    let out = folder.join("counts");
    let options = ["--tool=callgrind", "--collect-atstart=no", "--toggle-collect=mbrumzheg_counted", "--dump-after=mbrumzheg_counted_all"];
    let status =
        Command::new("valgrind").args(options).arg(format!("--callgrind-out-file={}", out.display())).arg(program).arg(word).output();
    assert!(status.is_ok_and(|output| output.status.success()), "valgrind runs {}", program.display());
    let mut numbers = 1..;
    move || {
        let number: usize = numbers.next().expect("a number");
        total(&fs::read_to_string(format!("{}.{number}", out.display())).expect("a count"))
    }
}

/// The instructions of one call of each, by a program that runs them all.
pub fn counts(program: &Path, folder: &Path) -> Counts {
    let mut part = counted(program, "counted", folder);
    let lines = lines().into_iter().map(|line| {
        let [none, counts @ ..] = [(); 4].map(|()| part());
        (line, counts.map(|count| (count - none) / CALLS))
    });
    let lines = lines.collect();
    let records = rounds().into_iter().map(|rounds| {
        let [none, counts @ ..] = [(); 3].map(|()| part());
        (rounds.name, counts.map(|count| (count - none) / RECORDS as u64))
    });
    Counts { lines, records: records.collect() }
}

/// What one offer takes beyond an order without reset at the same time on the same memory, in instructions.
#[derive(Debug)]
pub struct Beyond {
    /// The newest entry of two is inside the window.
    pub short: u64,
    /// The newest entry of 512 is.
    pub one: u64,
    /// All 512 are.
    pub all: u64,
}

/// How far the log is read, by a program that runs the calls.
pub fn beyond(program: &Path, folder: &Path) -> Beyond {
    let mut part = counted(program, "readings", folder);
    let [orders, offers] = [(); 2].map(|()| [(); 3].map(|()| part() / CALLS));
    let [short, one, all] = [0, 1, 2].map(|way| offers[way] - orders[way]);
    Beyond { short, one, all }
}

/// The instructions of a part's file.
fn total(file: &str) -> u64 {
    let line = file.lines().find_map(|line| line.strip_prefix("totals:").or_else(|| line.strip_prefix("summary:")));
    line.and_then(|count| count.trim().parse().ok()).expect("a total")
}
