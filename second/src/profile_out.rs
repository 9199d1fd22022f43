//! The rules that a unit runs, as profile text again.

use crate::rule::{Level, Profile, Rule, TYPES, UNIT_LETTERS};

/// The profile's text: one line a rule, in the rules' order, each with its LF.
pub fn text(profile: &Profile) -> Vec<u8> {
    profile.rules.iter().flat_map(|rule| line(profile, rule)).collect()
}

/// The line of a rule, without the empty fields at its end.
fn line(profile: &Profile, rule: &Rule) -> Vec<u8> {
    let fields = fields(profile, rule);
    let used = fields.iter().rposition(|field| !field.is_empty()).map_or(0, |last| last + 1);
    let mut line = fields[..used].join(&b',');
    line.push(b'\n');
    line
}

/// Firm, limit type, root, limit value, time limit, firm level, call/put and month.
fn fields(profile: &Profile, rule: &Rule) -> [Vec<u8>; 8] {
    let kind = TYPES.iter().find(|(_, is_rate, measure)| (*is_rate, *measure) == (rule.window.is_some(), rule.measure));
    let (root, firm_level, unit) = match rule.level {
        Level::Firm => (Vec::new(), b"T".to_vec(), None),
        Level::Root { root, unit } => (profile.roots[root as usize].clone(), Vec::new(), unit),
    };
    let [side, month] = unit.map_or([Vec::new(), Vec::new()], |unit| UNIT_LETTERS[unit as usize].map(|letter| vec![letter]));
    [
        profile.firm.clone(),
        kind.map_or(Vec::new(), |(name, _, _)| name.to_vec()),
        root,
        digits(rule.limit_value()),
        rule.window.map_or(Vec::new(), digits),
        firm_level,
        side,
        month,
    ]
}

/// The digits of a number, without leading zeros.
fn digits(number: u64) -> Vec<u8> {
    number.to_string().into_bytes()
}
