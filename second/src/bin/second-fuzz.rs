//! Writes a profile, records or days of calls from a seed to standard output.
//!
//! `second-fuzz profile SEED` writes a profile text;
//! `second-fuzz records SEED N` writes N records of 16 bytes that suit that profile, `second-fuzz records12 SEED N` ones of 12 bytes;
//! `second-fuzz days SEED DAYS N` writes so many days of N calls, one a line, each with what the second unit answers.

use std::env;
use std::io::{self, Write};
use std::process::ExitCode;

use second::gen;

fn main() -> ExitCode {
    let words: Vec<String> = env::args().skip(1).collect();
    match bytes(&words) {
        Some(bytes) => {
            // A closed output ends the program without a word.
            let _ = io::stdout().lock().write_all(&bytes);
            ExitCode::SUCCESS
        }
        None => {
            eprintln!(
                "second-fuzz profile SEED | second-fuzz records SEED N | second-fuzz records12 SEED N | second-fuzz days SEED DAYS N"
            );
            ExitCode::FAILURE
        }
    }
}

/// The bytes that the words ask for.
fn bytes(words: &[String]) -> Option<Vec<u8>> {
    let number = |place: usize| words.get(place)?.parse::<u64>().ok();
    let seed = number(1)?;
    let text = gen::profile(seed);
    match (words[0].as_str(), words.len()) {
        ("profile", 2) => Some(text),
        ("records", 3) => Some(gen::records16(seed, number(2)? as usize, &text)),
        ("records12", 3) => Some(gen::records(seed, number(2)? as usize, &text)),
        ("days", 4) => {
            let (days, n) = (number(2)?, number(3)? as usize);
            Some((0..days).flat_map(|day| gen::day(seed.wrapping_add(day), n).into_bytes()).collect())
        }
        _ => None,
    }
}
