//! What came up of orders sent away: sendings, reports, closings, and damaged registers.

use second::lent::Row;
use second::profile::{Measure, Rule};
use second::unit::{Armed, Away, LAST_IDENTITY, LOG_PLACES, MOST_TOTAL, REGISTER_PLACES};

use crate::scripts::{Kind, Step};

/// Sendings that were not refused.
pub const SENT: &[&str] = &[
    "beside a rate rule",
    "without a rate rule",
    "as the 64th",
    "as the 64th without a rate rule",
    "with more than 512 reports then allowed",
    "with all places then used",
    "under a locked firm",
    "under a locked root",
];
/// Sendings that were refused, and why.
pub const NOT_SENT: &[&str] = &[
    "13 for root or unit",
    "13 for the identity",
    "14 for premium or contracts",
    "14 for the reports",
    "17",
    "17 of an open identity",
    "17 under a lock",
    "18",
    "18 under a lock",
    "15",
    "15 with room for fewer reports",
];
/// Reports that were not refused.
pub const REPORTED: &[&str] = &[
    "of all that is open",
    "of a part",
    "the last one allowed",
    "under a locked firm",
    "under a locked root",
    "into the last place of the log",
    "as entries leave the log",
    "without a rate rule",
    "past a limit",
];
/// What a report that was not refused trips, or does not.
pub const TRIPPED: &[&str] = &[
    "nothing",
    "a root",
    "the firm",
    "both",
    "a level that had tripped",
    "by a total at its limit",
    "by a total above it",
    "by a rate rule above its limit",
    "no rate rule at its limit",
    "by a total that is held",
];
/// Reports that were refused, and why.
pub const NOT_REPORTED: &[&str] = &["13", "14", "18", "19 for the contracts", "19 with no contract open", "19 with no report left"];
/// Closings.
pub const CLOSED: &[&str] =
    &["with reports left", "with no report left", "with no contract open", "not the last sent", "refused with 13", "with 18"];

/// What holds of a call, by its place in its group.
fn places(holds: &[bool]) -> Vec<usize> {
    (0..holds.len()).filter(|place| holds[*place]).collect()
}

/// Does the profile have a rate rule?
fn has_rate_rule(armed: &Armed) -> bool {
    armed.profile.longest_window().is_some()
}

/// The use of the log's places at a time.
pub fn places_used(armed: &Armed, time: u64) -> u64 {
    let Some(longest) = armed.profile.longest_window() else { return 0 };
    let inside = armed.log.iter().filter(|entry| entry.time + longest > time).count() as u64;
    inside + reports_allowed(armed)
}

/// The reports that all open orders are still allowed.
fn reports_allowed(armed: &Armed) -> u64 {
    armed.away.iter().map(|order| order.reports).sum()
}

/// The order of an identity.
fn order_of(armed: &Armed, identity: u64) -> Option<&Away> {
    armed.away.iter().find(|order| order.identity == identity)
}

/// What a rate rule's account counts at a time.
fn counted(armed: &Armed, rule: &Rule, account: u64, window: u64, time: u64) -> u64 {
    let own = armed.log.iter().filter(|entry| rule.account(entry.root, entry.unit) == Some(account) && entry.time + window > time);
    let counting = own.filter(|entry| if rule.is_firm() { entry.counts_for_firm } else { entry.counts_for_root });
    let amounts = counting.map(|entry| match rule.measure {
        Measure::Notional => entry.premium * entry.contracts,
        Measure::Volume => entry.contracts,
        Measure::Count => 1,
    });
    amounts.sum()
}

/// The groups and places of a sending, a report or a closing: the groups are numbered from that of sendings.
pub fn seen(step: &Step, row: Row, before: &Armed, after: &Armed) -> Vec<(usize, usize)> {
    let of = |group: usize, places: Vec<usize>| places.into_iter().map(|place| (group, place)).collect::<Vec<_>>();
    match (step.kind, row[0]) {
        (Kind::Send, 0) => of(0, sent(step.numbers[0], row, after)),
        (Kind::Send, refusal) => of(1, not_sent(step, refusal, before)),
        (Kind::Report, 0) => [of(2, reported(step, before, after)), of(3, tripped(step, row, before, after))].concat(),
        (Kind::Report, refusal) => of(4, not_reported(step.numbers[1], refusal, before)),
        _ => of(5, closed(step.numbers[1], row[0], before)),
    }
}

fn sent(time: u64, row: Row, after: &Armed) -> Vec<usize> {
    let (enters, is_rated, is_full) = (row[1] == 0, has_rate_rule(after), after.away.len() == REGISTER_PLACES);
    places(&[
        enters && is_rated,
        enters && !is_rated,
        enters && is_full,
        enters && is_full && !is_rated,
        enters && reports_allowed(after) > LOG_PLACES as u64,
        enters && places_used(after, time) == LOG_PLACES as u64,
        row[1] == 1,
        row[1] == 2,
    ])
}

fn not_sent(step: &Step, refusal: u64, before: &Armed) -> Vec<usize> {
    let order = step.order();
    let is_locked = before.firm.locked() || before.roots.get(order.root as usize).is_some_and(|marks| marks.locked());
    let is_open = order_of(before, order.identity).is_some();
    let is_odd = order.root >= before.roots.len() as u64 || order.unit > 3;
    let is_priced = (1..=100_000_000).contains(&order.premium) && (1..=1_000_000).contains(&order.contracts);
    places(&[
        refusal == 13 && is_odd,
        refusal == 13 && !is_odd && order.identity > LAST_IDENTITY,
        refusal == 14 && !is_priced,
        refusal == 14 && is_priced,
        refusal == 17,
        refusal == 17 && is_open,
        refusal == 17 && is_locked,
        refusal == 18,
        refusal == 18 && is_locked,
        refusal == 15,
        refusal == 15 && places_used(before, step.numbers[0]) < LOG_PLACES as u64,
    ])
}

fn reported(step: &Step, before: &Armed, after: &Armed) -> Vec<usize> {
    let [time, identity, contracts, ..] = step.numbers;
    let Some(order) = order_of(before, identity) else { return Vec::new() };
    let limits = after.profile.rules.iter().zip(&after.totals).filter(|(rule, _)| rule.window.is_none());
    let mut accounts = limits.filter_map(|(rule, totals)| Some((rule.limit, totals[rule.account(order.root, order.unit)? as usize])));
    let leaves =
        before.profile.longest_window().is_some_and(|longest| before.log.front().is_some_and(|entry| entry.time + longest <= time));
    places(&[
        contracts == order.contracts,
        contracts < order.contracts,
        order.reports == 1,
        before.firm.locked(),
        !before.firm.locked() && before.roots[order.root as usize].locked(),
        after.log.len() == LOG_PLACES,
        leaves,
        !has_rate_rule(after),
        accounts.any(|(limit, total)| total > limit),
    ])
}

fn tripped(step: &Step, [_, _, _, root_trip, firm_trip]: Row, before: &Armed, after: &Armed) -> Vec<usize> {
    let [time, identity, ..] = step.numbers;
    let Some(order) = order_of(before, identity) else { return Vec::new() };
    let root_had = before.roots[order.root as usize].tripped;
    let (mut at, mut above, mut rate_above, mut rate_at, mut held) = (false, false, false, false, false);
    for (rule, totals) in after.profile.rules.iter().zip(&after.totals) {
        let Some(account) = rule.account(order.root, order.unit) else { continue };
        let total = totals[account as usize];
        match rule.window {
            None => {
                (at, above) = (at || total == rule.limit, above || total > rule.limit);
                held |= total == MOST_TOTAL;
            }
            Some(window) => {
                let counted = counted(after, rule, account, window, time);
                (rate_at, rate_above) = (rate_at || counted == rule.limit, rate_above || counted > rule.limit);
            }
        }
    }
    let trips = root_trip + firm_trip;
    places(&[
        trips == 0,
        root_trip == 1,
        firm_trip == 1,
        trips == 2,
        root_trip == 1 && root_had || firm_trip == 1 && before.firm.tripped,
        at,
        above,
        rate_above,
        rate_at && !at && !above && !rate_above && trips == 0,
        held,
    ])
}

fn not_reported(identity: u64, refusal: u64, before: &Armed) -> Vec<usize> {
    let order = order_of(before, identity);
    let (is_open, is_allowed) = (order.is_some_and(|order| order.contracts > 0), order.is_some_and(|order| order.reports > 0));
    places(&[
        refusal == 13,
        refusal == 14,
        refusal == 18,
        refusal == 19 && is_open && is_allowed,
        refusal == 19 && !is_open,
        refusal == 19 && !is_allowed,
    ])
}

fn closed(identity: u64, refusal: u64, before: &Armed) -> Vec<usize> {
    let order = order_of(before, identity).filter(|_| refusal == 0);
    let has = |holds: fn(&Away) -> bool| order.is_some_and(holds);
    let last = before.away.last().map(|order| order.identity);
    places(&[
        has(|order| order.reports > 0),
        has(|order| order.reports == 0),
        has(|order| order.contracts == 0),
        order.is_some_and(|order| Some(order.identity) != last),
        refusal == 13,
        refusal == 18,
    ])
}
