//! compare [SECONDS] [SEED]: runs both programs on days from seeds. replay FILE: runs a script on both.

use std::process::ExitCode;
use std::time::Duration;

use native::pair::{as_it_is, first_difference};
use native::run::{rate, report, run, End};
use native::scripts::parse;

fn main() -> ExitCode {
    // a panic of the second program is a difference like any other, and is shown as a script
    std::panic::set_hook(Box::new(|_| {}));
    let words: Vec<String> = std::env::args().skip(1).collect();
    let words: Vec<&str> = words.iter().map(String::as_str).collect();
    let number = |place: usize, usual: u64| words.get(place).map_or(Some(usual), |word| word.parse().ok());
    match (words.as_slice(), number(1, 60), number(2, 1)) {
        (["compare", ..], Some(seconds), Some(seed)) if words.len() <= 3 => compare(seconds, seed),
        (["replay", file], ..) => replay(file),
        _ => {
            eprintln!("usage: compare [SECONDS] [SEED] | replay FILE");
            ExitCode::from(2)
        }
    }
}

/// Runs days and prints what came up, and the script of a difference if there is one.
fn compare(seconds: u64, seed: u64) -> ExitCode {
    let outcome = run(End::After(Duration::from_secs(seconds)), seed, as_it_is);
    println!("{}\n{}", rate(outcome.days, &outcome.tally, outcome.spent), outcome.tally);
    match outcome.script {
        Some(script) => {
            print!("# a difference\n{}", report(&script, as_it_is));
            ExitCode::FAILURE
        }
        None => {
            println!("no difference from seed {seed}");
            ExitCode::SUCCESS
        }
    }
}

/// Runs a script and says whether the two differ.
fn replay(file: &str) -> ExitCode {
    let script = std::fs::read_to_string(file).map_err(|error| error.to_string()).and_then(|text| parse(&text));
    match script {
        Ok(script) => {
            print!("{}", report(&script, as_it_is));
            if first_difference(&script, as_it_is).is_some() {
                ExitCode::FAILURE
            } else {
                ExitCode::SUCCESS
            }
        }
        Err(error) => {
            eprintln!("{file}: {error}");
            ExitCode::from(2)
        }
    }
}
