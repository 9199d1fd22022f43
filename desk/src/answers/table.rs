//! The table of limits: each rule and unit with what is used and left and a bar; and how roots and firm stand.

use crate::answers::away;
use crate::answers::columns::{self, Row};
use crate::answers::locked::why_locked;
use crate::profile::{level_name, Scope};
use crate::session::sitting::Sitting;
use crate::session::standing::Lock;
use crate::typed::shown::Shown;
use crate::words::{self, counted, listed, set_in};
use mbrumzheg::{Marks, Refusal, Time, UnitOfRoot};

/// The limits with what is used and left at a time, a row for each rule and unit, and below them what of it is locked; a refusal says what to type.
pub fn rules(sitting: &Sitting, time: Time, shown: Shown) -> Result<String, String> {
    let asked = shown.asked(&sitting.profile);
    let rows: Result<Vec<Row>, Refusal> = asked.into_iter().map(|(rule, unit)| row(sitting, time, rule, unit)).collect();
    let rows = rows.map_err(|refusal| format!("{refusal}{}", advice(sitting, refusal, shown)))?;
    if rows.is_empty() {
        return Ok("no rule of the profile is for that".to_string());
    }
    let mut lines = columns::table(&rows, &format!("at {}", words::time(time)));
    lines.extend(locks(sitting, shown));
    Ok(lines.join("\n"))
}

/// What the library says of a rule and a unit.
fn row(sitting: &Sitting, time: Time, rule: u64, unit: UnitOfRoot) -> Result<Row, Refusal> {
    let left = sitting.remaining(time, rule, unit)?;
    let known = sitting.profile.rules.get(rule as usize);
    let (rule, count) = known.and_then(|rule| sitting.profile.count(rule.place_of(unit))).ok_or(Refusal::Unknown)?;
    let used = sitting.used(time, rule, count, left).all;
    let cells = [
        rule.number.to_string(),
        rule.kind.clone(),
        sitting.profile.scope_words(count.of),
        rule.limit_words(),
        rule.amount(used).to_string(),
        rule.amount(left).to_string(),
        format!("[{left}]"),
    ];
    Ok(Row { cells, used: (used, rule.limit) })
}

/// What to type after a refusal.
fn advice(sitting: &Sitting, refusal: Refusal, shown: Shown) -> String {
    let profile = &sitting.profile;
    match (refusal, shown) {
        (Refusal::BadTime, _) => format!("; type remaining, or a time from {} on", words::time(sitting.clock())),
        (Refusal::Unknown, Shown::Rule(number, _)) => match profile.rules.get(number as usize) {
            Some(rule) => {
                let units = if rule.scope == Scope::Firm { ", all units together" } else { " alone" };
                format!("; rule {number} is of {}{units}: type remaining rule {number}", profile.scope_words(rule.scope))
            }
            None => format!("; the rules are numbered 0 to {}", profile.rules.len() - 1),
        },
        _ => String::new(),
    }
}

/// A line for each level among those shown that is locked: since when, and what locked it.
fn locks(sitting: &Sitting, shown: Shown) -> Vec<String> {
    let level = shown.level(&sitting.profile);
    let words = |lock: &Lock| {
        let since = Time::from_ms(lock.since).map(words::time).unwrap_or_default();
        format!("{} is locked since {since}: {}", level_name(&sitting.profile, lock.level), lock.short_cause(&sitting.profile))
    };
    let is_shown = |lock: &&Lock| level.is_none_or(|level| lock.level == level);
    sitting.standing.locks().filter(is_shown).flat_map(|lock| set_in(&words(lock))).collect()
}

/// The clock, the firm and the roots, with Status's numbers.
pub fn status(sitting: &Sitting) -> Result<String, Refusal> {
    let status = sitting.status()?;
    let named = |wanted: fn(Marks) -> bool| {
        let names = sitting.roots_with(wanted);
        if names.is_empty() {
            "none".to_string()
        } else {
            listed(&names)
        }
    };
    let lowest = status.lowest_locked.map_or(64, |root| root.number());
    let text = format!(
        "clock {}, {} passed\nfirm {}: {}\nroots tripped: {}; locked by hand: {}; locked at all: {}  [{} {} {} {lowest}]",
        words::time(sitting.clock()),
        counted(sitting.place, "event"),
        sitting.profile.firm,
        why_locked(sitting.marks(0)),
        named(|marks| marks.tripped),
        named(|marks| marks.locked_by_user),
        named(Marks::locked),
        status.tripped,
        status.locked_by_user,
        status.locked,
    );
    Ok(std::iter::once(text).chain(open(sitting)).collect::<Vec<_>>().join("\n"))
}

/// So many orders sent away are named.
const MOST_ORDERS: usize = 12;

/// The orders sent away that are open: how many there are, and a line for each of the first.
fn open(sitting: &Sitting) -> Vec<String> {
    let orders = sitting.away.orders();
    if orders.is_empty() {
        return Vec::new();
    }
    let kept = if sitting.profile.has_rate() {
        format!(", {} kept", counted(sitting.away.reports() as usize, "log place"))
    } else {
        String::new()
    };
    let mut lines = vec![format!("{} sent away and open{kept}", counted(orders.len(), "order"))];
    lines.extend(orders.iter().take(MOST_ORDERS).map(|order| format!("  {}", away::line(&sitting.profile, order))));
    if orders.len() > MOST_ORDERS {
        lines.push(format!("  and {}", counted(orders.len() - MOST_ORDERS, "order")));
    }
    lines
}
