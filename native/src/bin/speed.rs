//! speed: prints, from one run, what the proved calls cost against a plain pass, the second program and the hand-written calls.
//! speed counts: prints instruction counts of the same lines, which valgrind takes and which are the same in every run.
//! speed program: the program over the hand-written calls.

use std::io::{stdin, stdout};
use std::path::PathBuf;
use std::time::Duration;

use native::beside::{days, no_slip};
use native::counts::{counts, run_counted, run_readings};
use native::lines::{lines, rates, Line};
use native::measure::{Least, Times, CALLS, ROUNDS};
use native::program;
use native::rates::{program_rates, Program};
use native::records::times::record_times;
use native::SIZE;

/// How often all lines are gone through, and how long a line is measured each time.
const TURNS: u32 = 6;
const LINE: Duration = Duration::from_millis(50);
/// How wide a line's name is printed.
const WIDE: usize = 93;

fn main() {
    let word = std::env::args().nth(1);
    match word.as_deref() {
        None => print_times(),
        Some("counts") => print_counts(),
        Some("counted") => run_counted(),
        Some("readings") => run_readings(),
        // a closed output ends the program without a word
        Some("program") => drop(program::run(stdin().lock(), stdout().lock())),
        Some(_) => eprintln!("usage: speed [counts | program]"),
    }
}

/// An empty folder of this run.
fn folder() -> PathBuf {
    let folder = std::env::temp_dir().join(format!("mbrumzheg-{}", std::process::id()));
    std::fs::create_dir_all(&folder).expect("a folder");
    folder
}

/// Prints instruction counts of every line.
fn print_counts() {
    let folder = folder();
    let counted = counts(&std::env::current_exe().expect("this program"), &folder);
    std::fs::remove_dir_all(&folder).expect("the folder goes");
    println!("Instructions of one call, by callgrind.");
    println!("{:WIDE$}{:>8}{:>8}{:>8}{:>8}{:>8}", "", "pass", "proved", "hand", "to pass", "to hand");
    for (line, [pass, library, hand]) in counted.lines {
        let [to_pass, to_hand] = [pass, hand].map(|count| library as f64 / count as f64);
        println!("{:WIDE$}{pass:8}{library:8}{hand:8}{to_pass:8.2}{to_hand:8.2}", line.name);
    }
    for (name, [library, hand]) in counted.records {
        println!("{name:WIDE$}{:8}{library:8}{hand:8}{:8}{:8.2}", "", "", library as f64 / hand as f64);
    }
}

/// Prints the table of times.
fn print_times() {
    checked();
    println!(
        "States are warm: each is copied into place before each call, outside the time. A round is {CALLS} calls, and its time their average without\n\
         the clock's own. Rounds take turns for {} ms a line, at least {ROUNDS}, and all lines are gone through {TURNS} times; the least round counts.\n\
         Ratios are the proved library's time to that of a plain pass over the state's {SIZE} numbers, of the second program on its own state, and of\n\
         the hand-written call on the same memory. A call is within its bound if it takes at most two plain passes and what the hand-written call\n\
         takes beyond the hand-written test of that state.",
        LINE.as_millis()
    );
    println!(
        "{:WIDE$}{:>8}{:>10}{:>8}{:>10}{:>8}{:>7}{:>12}",
        "", "pass ns", "proved ns", "to pass", "to second", "to hand", "bound", "a second"
    );
    let mut measured: Vec<(Line, Least)> = lines().into_iter().map(|line| (line, Least::default())).collect();
    for _ in 0..TURNS {
        measured.iter_mut().for_each(|(line, least)| least.measure(line, LINE));
    }
    measured.iter().for_each(|(line, least)| print_line(line, least.times()));
    print_records();
    print_programs();
}

/// Before anything is measured: the hand-written calls keep the contract on days of calls in which everything comes up.
fn checked() {
    let tally = days(250, 7, no_slip).unwrap_or_else(|difference| panic!("{difference}"));
    assert!(tally.missing().is_empty(), "never came up: {:?}", tally.missing());
    println!("The hand-written calls answered as the proved library and left the same memory in {} calls.", tally.calls);
}

/// Prints one line of the table.
fn print_line(line: &Line, times: Times) {
    let Times { pass, library, hand, second, hand_test } = times;
    let ratios = [library / pass, library / second, library / hand];
    let bound = 2.0 * pass + (hand - hand_test).max(0.0);
    let within = match line.tests_state() {
        true if library <= bound => "within",
        true => "above",
        false => "",
    };
    let [to_pass, to_second, to_hand] = ratios;
    println!("{:WIDE$}{pass:8.0}{library:10.0}{to_pass:8.2}{to_second:10.2}{to_hand:8.2}{within:>7}{:12.0}", line.name, 1e9 / library);
}

/// Prints what a record costs.
fn print_records() {
    println!("{:WIDE$}{:>10}{:>10}{:>8}{:>10}{:>8}", "", "proved ns", "second ns", "hand ns", "to second", "to hand");
    for (words, [library, second, hand]) in record_times() {
        println!("{words:WIDE$}{library:10.1}{second:10.1}{hand:8.1}{:10.2}{:8.2}", library / second, library / hand);
    }
}

/// Prints the records a second of the programs.
fn print_programs() {
    let this = std::env::current_exe().expect("this program");
    let beside = |name: &str| this.with_file_name(name);
    // the kit builds programs for x86-64 alone
    let gateway = if cfg!(target_arch = "x86_64") { this.with_file_name("../../bin/gateway") } else { PathBuf::new() };
    let programs = [
        Program { name: "proved", path: gateway, words: &[] },
        Program { name: "second", path: beside("second"), words: &[] },
        Program { name: "by hand", path: this.clone(), words: &["program"] },
    ];
    let folder = folder();
    for (name, rate) in program_rates(&programs, &rates(3, 3), &folder) {
        println!("The program, 6 rate rules, 50 entries, orders and offers in turn, {name}: {rate:.0} records a second of processor time");
    }
    std::fs::remove_dir_all(&folder).expect("the folder goes");
}
