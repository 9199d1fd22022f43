//! The desk as JSON, for the page to draw.

use crate::answers::away;
use crate::answers::columns::share;
use crate::answers::evening;
use crate::answers::locked::why_locked;
use crate::explain::check::meaning;
use crate::profile::{level_name, Count, Rule};
use crate::serve::bench::Bench;
use crate::serve::log::Entry;
use crate::session::ledger::Used;
use crate::session::register::Away;
use crate::session::resets;
use crate::session::sitting::Sitting;
use crate::typed::names::Names;
use crate::words;
use crate::words::json::{list, maybe, object, text};
use mbrumzheg::Time;

/// So many lines of the log come with a state; older ones are asked for.
const MOST_LINES: usize = 200;

/// The desk as it stands, its gauges at a time that was asked for, if there is one.
pub fn of(bench: &Bench, at: &str) -> Result<String, String> {
    let armed = match &bench.sitting {
        Some(sitting) => armed(sitting, at)?,
        None => "null".to_string(),
    };
    Ok(object(&[
        ("version", text(crate::report::VERSION)),
        ("profile", object(&[("name", text(&bench.profile.0)), ("text", text(&String::from_utf8_lossy(&bench.profile.1)))])),
        ("armed", armed),
        ("place", bench.place().to_string()),
        ("undone", bench.undone.len().to_string()),
        ("unsaved", bench.is_unsaved().to_string()),
        ("resets", list(resets::rows().map(of_reset))),
        ("canBringBack", bench.has_before().to_string()),
        ("log", log(bench, bench.log.len())),
    ]))
}

/// The lines of the log up to a place.
pub fn log(bench: &Bench, to: usize) -> String {
    let to = to.min(bench.log.len());
    list(bench.log[to.saturating_sub(MOST_LINES)..to].iter().map(Entry::json))
}

fn armed(sitting: &Sitting, at: &str) -> Result<String, String> {
    let names = Names::of(sitting);
    let typed: Vec<String> = if at.is_empty() { Vec::new() } else { vec![at.to_string()] };
    let (time, _) = names.table(&typed)?;
    let mut rules = Vec::new();
    for (rule, count) in sitting.profile.each_count() {
        let left = sitting.left(time, count).map_err(|refusal| refusal.to_string())?;
        rules.push(of_count(sitting, rule, count, sitting.used(time, rule, count, left), left));
    }
    let levels = (0..=sitting.profile.roots.len()).map(|level| of_level(sitting, level));
    let status = sitting.status().map_err(|refusal| refusal.to_string())?;
    let lowest = status.lowest_locked.map_or(64, |root| root.number());
    Ok(object(&[
        ("firm", text(&sitting.profile.firm)),
        ("roots", list(sitting.profile.roots.iter().map(|name| text(name)))),
        ("clock", text(&words::time(names.clock))),
        ("at", text(&words::time(time))),
        ("status", list([status.tripped, status.locked_by_user, status.locked, lowest].map(|number| number.to_string()))),
        ("levels", list(levels)),
        ("rules", list(rules)),
        ("account", evening::shown(&sitting.profile, &sitting.account)),
        ("away", list(sitting.away.orders().iter().map(|order| of_order(sitting, order)))),
    ]))
}

fn of_reset(row: resets::Row) -> String {
    object(&[("word", text(&row.word)), ("zeroes", text(&row.zeroes)), ("lifts", text(&row.lifts))])
}

fn of_level(sitting: &Sitting, level: usize) -> String {
    let lock = sitting.standing.lock(level);
    let since = lock.and_then(|lock| Time::from_ms(lock.since).ok()).map(words::time);
    object(&[
        ("name", text(&level_name(&sitting.profile, level))),
        ("why", text(why_locked(sitting.marks(level)))),
        ("locked", sitting.marks(level).locked().to_string()),
        ("since", maybe(since)),
        ("cause", maybe(lock.map(|lock| lock.cause(&sitting.profile)))),
    ])
}

fn of_order(sitting: &Sitting, order: &Away) -> String {
    object(&[
        ("identity", order.sent.identity.to_string()),
        ("on", text(&away::on(&sitting.profile, &order.sent))),
        ("premium", text(&format!("${}", words::premium(order.sent.premium)))),
        ("contracts", order.sent.contracts.to_string()),
        ("back", order.back().to_string()),
        ("open", order.open.to_string()),
        ("reports", order.reports.to_string()),
    ])
}

/// A rule on one of the units that it counts; a gauge is drawn for each.
fn of_count(sitting: &Sitting, rule: &Rule, count: &Count, Used { all: used, away }: Used, left: u64) -> String {
    let amount = |amount: u64| (amount > 0).then(|| rule.amount(amount).to_string());
    let tripped = sitting.standing.tripped(count.place).and_then(|ms| Time::from_ms(ms).ok()).map(words::time);
    object(&[
        ("number", rule.number.to_string()),
        ("kind", text(&rule.kind)),
        ("of", text(&sitting.profile.scope_words(count.of))),
        ("meaning", text(&meaning(&sitting.profile, rule, count.of))),
        ("limit", text(&rule.limit_words())),
        ("used", text(&rule.amount(used).to_string())),
        ("left", text(&rule.amount(left).to_string())),
        ("remaining", left.to_string()),
        ("back", maybe(amount(away))),
        ("past", maybe(amount(used.saturating_sub(rule.limit)))),
        ("percent", share(used, rule.limit, 100).to_string()),
        ("thousandths", share(used, rule.limit, 1_000).to_string()),
        ("level", count.level().to_string()),
        ("tripped", maybe(tripped)),
    ])
}
