//! What a file is, by its beginning: a day in words, records, or something else, which is no day.

use crate::files::in_words::HEAD;
use crate::library::form::Form;

/// So many bytes of a file are looked at.
pub const LOOKED_AT: u64 = 4_096;

/// What some editors put before a text.
const BYTE_ORDER_MARK: &[u8] = b"\xEF\xBB\xBF";

/// The words that an event of a day in words begins with.
const EVENTS: [&str; 9] = ["offer", "order", "lock", "lockout", "away", "send", "back", "close", "record"];

/// The types of rules, which a profile has after its firm.
const TYPES: [&str; 6] = ["rate_ntnl", "rate_vol", "rate_count", "abs_ntnl", "abs_vol", "abs_count"];

/// What a file holds.
#[derive(Clone, Copy, Debug, PartialEq, Eq)]
pub enum Kind {
    /// A day in words, whether or not its first line says so.
    Words,
    /// Records, or bytes that only reading them all can tell from records.
    Records,
    /// No day, for this reason.
    NoDay(&'static str),
}

/// What a file holds that begins so and whose records would be of a form.
pub fn of(beginning: &[u8], form: Form) -> Kind {
    if beginning.is_empty() {
        return Kind::NoDay("it is empty");
    }
    let Some(text) = text(beginning) else { return Kind::Records };
    let first = text.lines().map(str::trim).find(|line| !line.is_empty() && !line.starts_with('#'));
    let word = first.and_then(|line| line.split_whitespace().next()).unwrap_or_default().to_ascii_lowercase();
    if text.starts_with(HEAD.trim_end()) || first.is_none() || EVENTS.contains(&word.as_str()) {
        return Kind::Words;
    }
    if beginning.get(..form.size()).is_some_and(|record| form.piece(record).event().is_some()) {
        return Kind::Records;
    }
    Kind::NoDay(no_day(first.unwrap_or_default()))
}

/// Why a text is no day, by its first line.
fn no_day(line: &str) -> &'static str {
    let second = line.split(',').nth(1).map(str::to_ascii_lowercase);
    match second {
        Some(kind) if TYPES.contains(&kind.as_str()) => "it is a profile, for which there is arm",
        Some(_) => "it is a table of commas and no day",
        None => "it is a text and its first line is no event",
    }
}

/// The text that a file begins with, without a mark of its order of bytes; none where it has bytes that no text has.
fn text(beginning: &[u8]) -> Option<&str> {
    let bytes = beginning.strip_prefix(BYTE_ORDER_MARK).unwrap_or(beginning);
    let is_plain = |byte: &u8| !byte.is_ascii_control() || b"\t\r\n".contains(byte);
    let text = match std::str::from_utf8(bytes) {
        Ok(text) => text,
        // the last character is cut where the beginning ends
        Err(error) if error.error_len().is_none() => std::str::from_utf8(&bytes[..error.valid_up_to()]).ok()?,
        Err(_) => return None,
    };
    bytes.iter().all(is_plain).then_some(text)
}
