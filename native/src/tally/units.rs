//! What came up of rules without call/put and month, of which each unit counts for itself.

use second::profile::{Level, Rule, UNITS};
use second::unit::Armed;

/// How Remaining was asked: of which sort of rule, and on which unit.
pub const ASKED: &[&str] = &[
    "no rule",
    "a firm rule",
    "a firm rule on a unit above 0",
    "a rule of one unit",
    "a rule of one unit on another",
    "a whole root on unit 0",
    "on 1",
    "on 2",
    "on 3",
    "on a unit above 3",
];

/// The place of a Remaining in its group.
pub fn asked(armed: &Armed, rule: u64, unit: u64) -> usize {
    let known = usize::try_from(rule).ok().and_then(|line| armed.profile.rules.get(line));
    match known.map(|rule| &rule.level) {
        None => 0,
        Some(Level::Firm) => 1 + usize::from(unit != 0),
        Some(Level::Root { unit: Some(own), .. }) => 3 + usize::from(unit != *own),
        Some(Level::Root { unit: None, .. }) => 5 + unit.min(UNITS) as usize,
    }
}

/// What another unit of a rule without call/put and month has when one of its units is offered something.
pub const BESIDE: &[&str] = &["a total", "a total at its limit or above", "an entry inside the window"];

/// Which of these hold of some rule that covers an offer, which was not locked out; the offer changes nothing on other units.
pub fn beside(armed: &Armed, time: u64, root: u64, unit: u64) -> [bool; 3] {
    let is_whole = |rule: &Rule| rule.level == Level::Root { root, unit: None };
    let whole = || armed.profile.rules.iter().zip(&armed.totals).filter(|(rule, _)| is_whole(rule));
    let others = |least: &dyn Fn(&Rule) -> u64| {
        let has = |(rule, totals): (&Rule, &[u64; 4])| {
            rule.window.is_none() && (0..UNITS).zip(totals).any(|(other, total)| other != unit && *total >= least(rule))
        };
        whole().any(has)
    };
    let inside = |window: u64| {
        let mut entries = armed.log.iter().rev().take_while(|entry| entry.time + window > time);
        entries.any(|entry| entry.root == root && entry.unit != unit && entry.counts_for_root)
    };
    [others(&|_| 1), others(&|rule| rule.limit), whole().filter_map(|(rule, _)| rule.window).any(inside)]
}
