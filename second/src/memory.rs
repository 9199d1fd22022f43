//! The state in lent 64-bit numbers: how docs/MEMORY.md packs it, and the documents' sentences on what is sound.

use std::collections::VecDeque;

use crate::place::*;
use crate::profile::{self, Level, Measure, Profile, Rule, UNITS};
use crate::profile_out;
use crate::register;
use crate::rule::DOLLAR;
use crate::totals;
use crate::unit::{Armed, Entry, Marks, LOG_PLACES};
use crate::{is_contracts, is_premium, is_time};

/// What the state's numbers hold.
#[derive(Clone, Debug, PartialEq, Eq)]
pub enum Held {
    /// The mark is 0; the rest may be anything.
    NotArmed,
    /// A sound state.
    Sound(Armed),
    /// The mark is not 0, and the state is not sound.
    Unsound,
}

/// Reads what the numbers hold.
pub fn read(numbers: &[u64]) -> Held {
    match numbers[MARK] {
        0 => Held::NotArmed,
        1 => armed_of(numbers).map_or(Held::Unsound, Held::Sound),
        _ => Held::Unsound,
    }
}

/// Writes a state: its numbers where they belong, and 0 in the places that are not used.
pub fn write(armed: &Armed, numbers: &mut [u64]) {
    let profile = &armed.profile;
    numbers[..NUMBERS].fill(0);
    numbers[MARK] = 1;
    numbers[CLOCK] = armed.clock;
    numbers[FIRM] = name_number(&profile.firm);
    write_table(&mut numbers[ROOT_COUNT..], profile.roots.iter().map(|name| [name_number(name)]));
    write_table(&mut numbers[RULE_COUNT..], profile.rules.iter().map(rule_numbers));
    totals::write(&profile.rules, &armed.totals, &mut numbers[TOTALS..FIRM_TRIPPED]);
    write_locks(armed, numbers);
    register::write(&armed.away, &mut numbers[REGISTER..ENTRY_COUNT]);
    write_table(&mut numbers[ENTRY_COUNT..], armed.log.iter().map(entry_numbers));
}

/// Writes a table over zeros: how many rows it has, then these.
pub(crate) fn write_table<const N: usize>(table: &mut [u64], rows: impl ExactSizeIterator<Item = [u64; N]>) {
    table[0] = rows.len() as u64;
    for (place, row) in rows.enumerate() {
        table[1 + N * place..][..N].copy_from_slice(&row);
    }
}

/// Writes the marks of the firm and of the roots over zeros.
fn write_locks(armed: &Armed, numbers: &mut [u64]) {
    numbers[FIRM_TRIPPED] = armed.firm.tripped.into();
    numbers[FIRM_LOCKED] = armed.firm.user.into();
    for (root, marks) in armed.roots.iter().enumerate() {
        numbers[ROOTS_TRIPPED] |= u64::from(marks.tripped) << root;
        numbers[ROOTS_LOCKED] |= u64::from(marks.user) << root;
    }
}

/// A name's bytes as one number, the first on top.
fn name_number(name: &[u8]) -> u64 {
    name.iter().fold(0, |number, byte| number << 8 | u64::from(*byte))
}

/// The bytes of a number, from the first that is not 0.
fn name_of(number: u64) -> Vec<u8> {
    number.to_be_bytes().into_iter().skip_while(|byte| *byte == 0).collect()
}

/// Fields side by side, each with its width in bits, the first on top.
pub(crate) fn joined(fields: &[(u64, u32)]) -> u64 {
    fields.iter().fold(0, |number, (field, width)| number << width | field)
}

/// The fields of a number by their widths, which make 64 together.
pub(crate) fn parted<const N: usize>(number: u64, widths: [u32; N]) -> [u64; N] {
    let mut left = u64::BITS;
    widths.map(|width| {
        left -= width;
        number >> left & ((1 << width) - 1)
    })
}

/// The two numbers of a rule.
fn rule_numbers(rule: &Rule) -> [u64; 2] {
    let measure = match rule.measure {
        Measure::Notional => 0,
        Measure::Volume => 1,
        Measure::Count => 2,
    };
    let (scope, root, unit) = match rule.level {
        Level::Firm => (0, 0, 0),
        Level::Root { root, unit: None } => (1, root, 0),
        Level::Root { root, unit: Some(unit) } => (2, root, unit),
    };
    let kind = u64::from(rule.window.is_none());
    let first = joined(&[(rule.limit_value(), 37), (rule.window.unwrap_or(0), 27)]);
    [first, joined(&[(measure, 2), (kind, 1), (scope, 2), (root, 6), (unit, 2)])]
}

/// The two numbers of an entry.
fn entry_numbers(entry: &Entry) -> [u64; 2] {
    let flags = [(entry.counts_for_root.into(), 1), (entry.counts_for_firm.into(), 1)];
    let first = joined(&[(entry.time, 27), (entry.root, 6), (entry.unit, 2), flags[0], flags[1]]);
    [first, joined(&[(entry.premium, 27), (entry.contracts, 20)])]
}

/// The state of numbers whose mark is 1, if it is sound.
fn armed_of(numbers: &[u64]) -> Option<Armed> {
    let clock = Some(numbers[CLOCK]).filter(|clock| is_time(*clock))?;
    let roots = rows_of(&numbers[ROOT_COUNT..RULE_COUNT], 1)?;
    let rules = rows_of(&numbers[RULE_COUNT..TOTALS], 2)?;
    let log = rows_of(&numbers[ENTRY_COUNT..NUMBERS], 2)?;
    let profile = profile_of(numbers[FIRM], roots, rules)?;
    let totals = totals::read(&profile.rules, &numbers[TOTALS..FIRM_TRIPPED])?;
    let log = log_of(log, clock, roots.len() as u64)?;
    if profile.longest_window().is_none() && !log.is_empty() {
        return None;
    }
    let firm = Marks { tripped: flag(numbers[FIRM_TRIPPED])?, user: flag(numbers[FIRM_LOCKED])? };
    let away = register::read(&numbers[REGISTER..ENTRY_COUNT], roots.len() as u64)?;
    let roots = marks_of(numbers[ROOTS_TRIPPED], numbers[ROOTS_LOCKED], roots.len())?;
    let armed = Armed { profile, clock, totals, firm, roots, log, away };
    (armed.places_used(clock) <= LOG_PLACES as u64).then_some(armed)
}

/// The rows of a table that has their count in front, if there are so many places and the others hold 0.
pub(crate) fn rows_of(table: &[u64], numbers_each: usize) -> Option<&[u64]> {
    let (count, places) = table.split_first()?;
    let length = usize::try_from(*count).ok()?.checked_mul(numbers_each)?;
    let (used, unused) = places.split_at_checked(length)?;
    unused.iter().all(|number| *number == 0).then_some(used)
}

/// The profile of a firm, roots and rules, if some accepted text gives just these: the plain one that is written from them does.
fn profile_of(firm: u64, roots: &[u64], rules: &[u64]) -> Option<Profile> {
    let roots: Vec<Vec<u8>> = roots.iter().map(|name| name_of(*name)).collect();
    let rules = rules.chunks(2).map(rule_of).collect::<Option<Vec<Rule>>>()?;
    let stored = Profile { firm: name_of(firm), roots, rules };
    if !stored.rules.iter().all(|rule| speaks_of_known_root(rule, stored.roots.len())) {
        return None;
    }
    profile::read(&profile_out::text(&stored)).ok().filter(|profile| *profile == stored)
}

/// Is the rule the firm's, or of one of so many roots?
fn speaks_of_known_root(rule: &Rule, roots: usize) -> bool {
    match rule.level {
        Level::Firm => true,
        Level::Root { root, .. } => root < roots as u64,
    }
}

/// The rule of two numbers, if its fields mean something; whether a profile can have it is judged elsewhere.
fn rule_of(numbers: &[u64]) -> Option<Rule> {
    let [limit, window] = parted(numbers[0], [37, 27]);
    let [spare, measure, kind, scope, root, unit] = parted(numbers[1], [51, 2, 1, 2, 6, 2]);
    let (measure, limit) = match measure {
        0 => (Measure::Notional, limit * DOLLAR),
        1 => (Measure::Volume, limit),
        2 => (Measure::Count, limit),
        _ => return None,
    };
    let window = match (kind, window) {
        (0, window) => Some(window),
        (_, 0) => None,
        _ => return None,
    };
    let level = match (scope, root, unit) {
        (0, 0, 0) => Level::Firm,
        (1, root, 0) => Level::Root { root, unit: None },
        (2, root, unit) => Level::Root { root, unit: Some(unit) },
        _ => return None,
    };
    (spare == 0).then_some(Rule { measure, window, limit, level })
}

/// The log, if its entries are in range, in order of time and none later than the clock.
fn log_of(numbers: &[u64], clock: u64, roots: u64) -> Option<VecDeque<Entry>> {
    let log = numbers.chunks(2).map(|pair| entry_of(pair, roots)).collect::<Option<VecDeque<Entry>>>()?;
    let times = || log.iter().map(|entry| entry.time);
    let in_order = times().zip(times().skip(1).chain([clock])).all(|(one, next)| one <= next);
    (log.len() <= LOG_PLACES && in_order).then_some(log)
}

/// The entry of two numbers, if all its fields are in range and a flag is set.
fn entry_of(numbers: &[u64], roots: u64) -> Option<Entry> {
    let [spare, time, root, unit, for_root, for_firm] = parted(numbers[0], [27, 27, 6, 2, 1, 1]);
    let [above, premium, contracts] = parted(numbers[1], [17, 27, 20]);
    let in_range = is_time(time) && root < roots && unit < UNITS && is_premium(premium) && is_contracts(contracts);
    let (counts_for_root, counts_for_firm) = (for_root == 1, for_firm == 1);
    let entry = Entry { time, root, unit, premium, contracts, counts_for_root, counts_for_firm };
    (spare == 0 && above == 0 && in_range && entry.counts()).then_some(entry)
}

/// A mark that is 0 or 1.
fn flag(number: u64) -> Option<bool> {
    (number <= 1).then_some(number == 1)
}

/// Each root's marks by the two words, if no bit stands for a root beyond the last.
fn marks_of(tripped: u64, user: u64, roots: usize) -> Option<Vec<Marks>> {
    let bit = |word: u64, root: usize| word >> root & 1 == 1;
    if (roots..64).any(|beyond| bit(tripped | user, beyond)) {
        return None;
    }
    Some((0..roots).map(|root| Marks { tripped: bit(tripped, root), user: bit(user, root) }).collect())
}
