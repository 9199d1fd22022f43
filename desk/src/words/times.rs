//! Times of the day and stretches of it, as people type and read them.

use crate::words::amounts::{grouped, on_commas, read_decimal};
use mbrumzheg::Time;

/// A stretch of milliseconds in the largest unit that says it whole.
pub fn span(ms: u64) -> String {
    match ms {
        0 => "0 ms".to_string(),
        ms if ms % 3_600_000 == 0 => format!("{} h", ms / 3_600_000),
        ms if ms % 60_000 == 0 => format!("{} min", ms / 60_000),
        ms if ms % 1_000 == 0 => format!("{} s", ms / 1_000),
        ms => format!("{} ms", grouped(ms)),
    }
}

/// A time of the day: milliseconds below ten seconds, as at a bench, and the clock's face from there on; microseconds where there are such.
pub fn time(time: Time) -> String {
    match (time.ms(), time.micros()) {
        (ms @ 0..10_000, 0) => format!("{ms}ms"),
        (ms @ 0..10_000, micros) => format!("{ms}.{micros:03}ms"),
        _ => time.to_string(),
    }
}

/// How a time may be typed, for error messages.
pub const TIME_FORMS: &str = "a time like 10ms, 250us, 2.5s, 09:30, 09:30:00.250, now, or +10ms for 10 ms after the clock";

/// Reads a time: from midnight, of the clock's face, or from a state's clock.
pub fn read_time(word: &str, clock: Time) -> Result<Time, String> {
    let wrong = || format!("'{word}' is no time; type {TIME_FORMS}{}", on_commas(word));
    let us = match word.strip_prefix('+') {
        Some(after) => clock.us().checked_add(read_span(after).ok_or_else(wrong)?).ok_or_else(wrong)?,
        None if word.eq_ignore_ascii_case("now") => clock.us(),
        None if word.contains(':') => read_face(word).ok_or_else(wrong)?,
        None => read_span(word).ok_or_else(wrong)?,
    };
    Time::from_us(us).map_err(|_| format!("'{word}' is past the end of the day; the last time is 23:59:59.999999"))
}

/// Whether a word is meant as a time: no name of a root has a small letter, a colon or a plus.
pub fn looks_like_time(word: &str) -> bool {
    word == "now"
        || word.starts_with('+')
        || word.contains(':')
        || (word.starts_with(|c: char| c.is_ascii_digit()) && word.ends_with(|c: char| c.is_ascii_lowercase()))
}

/// `250us`, `10ms`, `2.5s`, `3min`, `1h` as microseconds.
fn read_span(word: &str) -> Option<u64> {
    let end = word.find(|c: char| c.is_ascii_alphabetic())?;
    let (number, unit) = word.split_at(end);
    let millionths = read_decimal(number, 6)?;
    let scale: u64 = match unit {
        "us" => 1,
        "ms" => 1_000,
        "s" => 1_000_000,
        "min" => 60_000_000,
        "h" => 3_600_000_000,
        _ => return None,
    };
    let all = u128::from(millionths) * u128::from(scale);
    u64::try_from(all / 1_000_000).ok().filter(|_| all % 1_000_000 == 0)
}

/// `09:30`, `09:30:15`, `09:30:15.250` or `09:30:15.250125` as microseconds.
fn read_face(word: &str) -> Option<u64> {
    let mut parts = word.split(':');
    let hours = read_below(parts.next()?, 24)?;
    let minutes = read_below(parts.next()?, 60)?;
    let us = match parts.next() {
        Some(seconds) => read_decimal(seconds, 6).filter(|us| *us < 60_000_000)?,
        None => 0,
    };
    parts.next().is_none().then_some(hours * 3_600_000_000 + minutes * 60_000_000 + us)
}

fn read_below(word: &str, end: u64) -> Option<u64> {
    read_decimal(word, 0).filter(|n| *n < end)
}
