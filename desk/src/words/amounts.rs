//! Premiums, amounts, numbers of things and units, as people type and read them.

use mbrumzheg::{Contracts, Premium, Reset, UnitOfRoot};
use std::fmt;

/// An amount of what a rule counts, to be read by a person.
#[derive(Clone, Copy, Debug, PartialEq, Eq)]
pub enum Amount {
    /// Ten-thousandths of a dollar.
    Dollars(u64),
    /// Contracts or executions.
    Pieces(u64),
}

impl fmt::Display for Amount {
    fn fmt(&self, f: &mut fmt::Formatter<'_>) -> fmt::Result {
        match *self {
            Amount::Dollars(n) => f.pad(&format!("${}", dollars(n))),
            Amount::Pieces(n) => f.pad(&grouped(n)),
        }
    }
}

/// A number with a comma between thousands.
pub fn grouped(number: u64) -> String {
    let digits = number.to_string();
    let mut text = String::new();
    for (place, digit) in digits.chars().enumerate() {
        if place > 0 && (digits.len() - place) % 3 == 0 {
            text.push(',');
        }
        text.push(digit);
    }
    text
}

/// Ten-thousandths as dollars: whole, with cents, or with all four places, whichever says it all.
pub fn dollars(n: u64) -> String {
    let (whole, rest) = (grouped(n / 10_000), n % 10_000);
    match rest {
        0 => whole,
        rest if rest % 100 == 0 => format!("{whole}.{:02}", rest / 100),
        rest => format!("{whole}.{rest:04}"),
    }
}

/// A premium as it is typed: at least cents.
pub fn premium(premium: Premium) -> String {
    let n = premium.ten_thousandths();
    let (whole, rest) = (n / 10_000, n % 10_000);
    if rest % 100 == 0 {
        format!("{whole}.{:02}", rest / 100)
    } else {
        format!("{whole}.{rest:04}")
    }
}

/// A number of things, with an s where there is not exactly one.
pub fn counted(n: usize, thing: &str) -> String {
    format!("{} {thing}{}", grouped(n as u64), if n == 1 { "" } else { "s" })
}

/// A unit in the words that the desk takes.
pub fn unit(unit: UnitOfRoot) -> &'static str {
    match unit {
        UnitOfRoot::CallsFront => "call front",
        UnitOfRoot::CallsTrailing => "call trailing",
        UnitOfRoot::PutsFront => "put front",
        UnitOfRoot::PutsTrailing => "put trailing",
    }
}

/// A reset in the words that the desk takes; nothing for none.
pub fn reset(reset: Reset) -> String {
    match reset {
        Reset::None => String::new(),
        _ => format!(" reset {reset}"),
    }
}

/// A number of contracts at a premium, for an answer that repeats what was asked for.
pub fn at_premium(contracts: Contracts, of: Premium) -> String {
    format!("{} at ${}", grouped(contracts.count()), premium(of))
}

/// Reads a premium in dollars, with at most four places after the point.
pub fn read_premium(word: &str) -> Result<Premium, String> {
    let number = word.strip_prefix('$').unwrap_or(word);
    read_decimal(number, 4)
        .and_then(|n| Premium::from_ten_thousandths(n).ok())
        .ok_or_else(|| format!("'{word}' is no premium; type dollars from 0.0001 to 10000, like 7.00{}", on_commas(word)))
}

/// Reads a number of contracts.
pub fn read_contracts(word: &str) -> Result<Contracts, String> {
    read_decimal(word, 0)
        .and_then(|n| Contracts::new(n).ok())
        .ok_or_else(|| format!("'{word}' is no number of contracts; type 1 to 1000000{}", on_commas(word)))
}

/// What a comma may stand for, where a word that cannot be read has one.
pub fn on_commas(word: &str) -> &'static str {
    if word.contains(',') {
        "; a comma stands between thousands alone, like 1,000"
    } else {
        ""
    }
}

/// Digits, with commas between thousands or none, and at most so many after a point, as a number of the last place.
pub fn read_decimal(word: &str, places: u32) -> Option<u64> {
    let (whole, part) = word.split_once('.').unwrap_or((word, ""));
    if part.len() > places as usize || !are_digits(part) || word.ends_with('.') {
        return None;
    }
    let digits: String = without_commas(whole)?.chars().chain(part.chars()).collect();
    let missing = places - part.len() as u32;
    digits.parse::<u64>().ok()?.checked_mul(10u64.pow(missing))
}

fn are_digits(text: &str) -> bool {
    text.bytes().all(|byte| byte.is_ascii_digit())
}

/// A whole number's digits; none where there are none, or where its commas are not those that part thousands.
fn without_commas(whole: &str) -> Option<String> {
    let (first, thousands) = whole.split_once(',').map_or((whole, None), |(first, rest)| (first, Some(rest)));
    let is_parted = thousands.is_none_or(|rest| {
        (1..=3).contains(&first.len()) && !first.starts_with('0') && rest.split(',').all(|group| group.len() == 3 && are_digits(group))
    });
    let is_number = !first.is_empty() && are_digits(first) && is_parted;
    is_number.then(|| whole.replace(',', ""))
}

#[cfg(test)]
mod tests {
    use super::{grouped, read_decimal};

    #[test]
    fn a_comma_is_read_between_thousands_alone() {
        for n in [0, 7, 999, 1_000, 12_345, 999_999, 1_000_000, 1_234_567_890] {
            assert_eq!((read_decimal(&grouped(n), 0), read_decimal(&n.to_string(), 0)), (Some(n), Some(n)));
        }
        assert_eq!((read_decimal("12,345.50", 4), read_decimal("007", 0)), (Some(123_455_000), Some(7)));
        for word in ["7,00", "1,5", "1,00,0", ",5", ",500", "1,", "1,0000", "1000,000", "1,000,", "1,,000", "0,500", "1,000.0,0", "", "."] {
            assert_eq!((read_decimal(word, 0), read_decimal(word, 4)), (None, None), "{word}");
        }
    }
}
