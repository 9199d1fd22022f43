//! The profile text: one rule a line, fields by comma.

pub use crate::rule::{Level, Measure, Profile, Rule, UNITS};
use crate::rule::{DOLLAR, TYPES, UNIT_LETTERS};

/// The longest profile that is read, in bytes.
pub const MOST_BYTES: usize = 65_536;
/// The most rules of a profile.
pub const MOST_RULES: usize = 256;
/// The most firm rules of a profile.
pub const MOST_FIRM_RULES: usize = 10;
/// The most root rules that cover one unit of a root.
pub const MOST_UNIT_RULES: usize = 6;
/// The most roots of a profile.
pub const MOST_ROOTS: usize = 64;

/// The shortest window of a rate rule.
const LEAST_WINDOW: u64 = 100;
/// The longest window of a rate rule.
const MOST_WINDOW: u64 = 86_400_000;
/// The largest notional limit, in whole dollars.
const MOST_DOLLARS: u64 = 100_000_000_000;
/// The largest volume or count limit.
const MOST_VOLUME_OR_COUNT: u64 = 1_000_000_000;

/// The fields of one line that passed the check for 6.
struct Line<'a> {
    firm: &'a [u8],
    measure: Measure,
    is_rate: bool,
    root: &'a [u8],
    limit: u64,
    time_limit: u64,
    asks_firm: bool,
    side: Option<u8>,
    month: Option<u8>,
}

/// Reads a profile, or gives the refusal and the line (0 for the whole text).
pub fn read(text: &[u8]) -> Result<Profile, (u64, u64)> {
    if text.is_empty() || text.len() > MOST_BYTES {
        return Err((5, 0));
    }
    let mut profile = Profile { firm: Vec::new(), roots: Vec::new(), rules: Vec::new() };
    for (number, line) in (1u64..).zip(lines(text)) {
        add_line(&mut profile, line).map_err(|refusal| (refusal, number))?;
    }
    Ok(profile)
}

/// The lines of a text, whose last may lack its LF.
fn lines(text: &[u8]) -> impl Iterator<Item = &[u8]> {
    let body = text.strip_suffix(b"\n").unwrap_or(text);
    body.split(|byte| *byte == b'\n')
}

/// Adds the rule of one line, or gives the lowest refusal of 6 to 11 that applies.
fn add_line(profile: &mut Profile, bytes: &[u8]) -> Result<(), u64> {
    let line = read_fields(bytes).ok_or(6u64)?;
    if !profile.rules.is_empty() && profile.firm != line.firm {
        return Err(7);
    }
    let limit = limit_in_measure(line.measure, line.limit).ok_or(8u64)?;
    let window = window_of(&line).ok_or(8u64)?;
    let has_root = !line.root.is_empty();
    if has_root == line.asks_firm {
        return Err(9);
    }
    let unit = unit_of(line.side, line.month).ok_or(10u64)?;
    if line.asks_firm && unit.is_some() {
        return Err(10);
    }
    let root = profile.roots.iter().position(|known| known == line.root);
    if is_one_too_many(profile, line.asks_firm, root, unit) {
        return Err(11);
    }
    let level = if line.asks_firm {
        Level::Firm
    } else {
        let place = root.unwrap_or_else(|| {
            profile.roots.push(line.root.to_vec());
            profile.roots.len() - 1
        });
        Level::Root { root: place as u64, unit }
    };
    profile.firm = line.firm.to_vec();
    profile.rules.push(Rule { measure: line.measure, window, limit, level });
    Ok(())
}

/// Reads the fields of a line, or nothing if the line is malformed.
fn read_fields(bytes: &[u8]) -> Option<Line<'_>> {
    let fields: Vec<&[u8]> = bytes.split(|byte| *byte == b',').collect();
    if fields.len() < 4 || fields.len() > 8 {
        return None;
    }
    let field = |place: usize| -> &[u8] { fields.get(place).copied().unwrap_or(b"") };
    let (is_rate, measure) = limit_type(field(1))?;
    let firm = field(0);
    let root = field(2);
    if firm.is_empty() || firm.len() > 4 || !are_capitals_or_digits(firm) {
        return None;
    }
    if root.len() > 6 || !are_capitals_or_digits(root) {
        return None;
    }
    let limit = number(field(3))?;
    let time_limit = if !is_rate || field(4).is_empty() { 0 } else { number(field(4))? };
    let asks_firm = field(5) == b"T";
    let side = letter(field(6), b"CP")?;
    let month = letter(field(7), b"FT")?;
    Some(Line { firm, measure, is_rate, root, limit, time_limit, asks_firm, side, month })
}

/// Is it a rate type, and what does it count?
fn limit_type(field: &[u8]) -> Option<(bool, Measure)> {
    TYPES.iter().find(|(name, _, _)| *name == field).map(|(_, is_rate, measure)| (*is_rate, *measure))
}

/// Has the field capitals and digits alone?
fn are_capitals_or_digits(field: &[u8]) -> bool {
    field.iter().all(|byte| byte.is_ascii_uppercase() || byte.is_ascii_digit())
}

/// The number of 1 to 12 digits that the field holds.
fn number(field: &[u8]) -> Option<u64> {
    if field.is_empty() || field.len() > 12 || !field.iter().all(u8::is_ascii_digit) {
        return None;
    }
    Some(field.iter().fold(0, |value, digit| value * 10 + u64::from(digit - b'0')))
}

/// Nothing of an empty field, the letter of a good one, and no answer for any other.
fn letter(field: &[u8], good: &[u8; 2]) -> Option<Option<u8>> {
    match field {
        [] => Some(None),
        [byte] if good.contains(byte) => Some(Some(*byte)),
        _ => None,
    }
}

/// The limit in the rule's own measure, if it is in range.
fn limit_in_measure(measure: Measure, value: u64) -> Option<u64> {
    match measure {
        Measure::Notional if (1..=MOST_DOLLARS).contains(&value) => Some(value * DOLLAR),
        Measure::Volume | Measure::Count if (1..=MOST_VOLUME_OR_COUNT).contains(&value) => Some(value),
        _ => None,
    }
}

/// The window of a rate rule if it is in range, and none for an absolute rule.
fn window_of(line: &Line) -> Option<Option<u64>> {
    if !line.is_rate {
        return Some(None);
    }
    if line.time_limit > MOST_WINDOW {
        return None;
    }
    Some(Some(line.time_limit.max(LEAST_WINDOW)))
}

/// The unit of the call/put and month fields, none if both are empty, no answer if they clash.
fn unit_of(side: Option<u8>, month: Option<u8>) -> Option<Option<u64>> {
    match (side, month) {
        (None, None) => Some(None),
        (Some(side), Some(month)) => UNIT_LETTERS.iter().position(|letters| *letters == [side, month]).map(|unit| Some(unit as u64)),
        _ => None,
    }
}

/// Would a further rule make one rule or root too many?
fn is_one_too_many(profile: &Profile, is_firm: bool, root: Option<usize>, unit: Option<u64>) -> bool {
    if profile.rules.len() >= MOST_RULES {
        return true;
    }
    if is_firm {
        return profile.rules.iter().filter(|rule| rule.is_firm()).count() >= MOST_FIRM_RULES;
    }
    match root {
        None => profile.roots.len() >= MOST_ROOTS,
        Some(place) => (0..UNITS)
            .filter(|one| unit.is_none() || unit == Some(*one))
            .any(|one| root_rules_on(profile, place as u64, one) >= MOST_UNIT_RULES),
    }
}

/// How many root rules cover this unit of the root?
fn root_rules_on(profile: &Profile, root: u64, unit: u64) -> usize {
    profile.rules.iter().filter(|rule| !rule.is_firm() && rule.covers(root, unit)).count()
}
