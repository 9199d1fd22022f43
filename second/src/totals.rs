//! How the totals stand in lent numbers, and when they are sound. No other file knows it.

use crate::profile::{Rule, MOST_RULES, UNITS};
use crate::unit::{Totals, MOST_TOTAL};

/// How many numbers the totals take: the most accounts that rules can have.
pub const PLACES: usize = UNITS as usize * MOST_RULES;

/// Which account of which rule each of those numbers is the total of: the accounts one after the other, in the rules' order. A rate rule's have their
/// numbers too, though it has no total.
pub fn accounts(rules: &[Rule]) -> Vec<(usize, usize)> {
    let all = (0..rules.len()).flat_map(|line| (0..UNITS as usize).map(move |account| (line, account)));
    all.filter(|(line, account)| rules[*line].has_account(*account as u64)).collect()
}

/// Writes the totals of rules over zeros.
pub fn write(rules: &[Rule], totals: &[Totals], numbers: &mut [u64]) {
    for ((line, account), number) in accounts(rules).into_iter().zip(numbers) {
        *number = totals[line][account];
    }
}

/// The totals of rules, if each is in range and every number that is no account's is 0.
pub fn read(rules: &[Rule], numbers: &[u64]) -> Option<Vec<Totals>> {
    let accounts = accounts(rules);
    let (used, unused) = numbers.split_at_checked(accounts.len())?;
    let mut totals = vec![Totals::default(); rules.len()];
    for ((line, account), number) in accounts.into_iter().zip(used) {
        totals[line][account] = Some(*number).filter(|total| is_total(*total, &rules[line]))?;
    }
    unused.iter().all(|number| *number == 0).then_some(totals)
}

/// May an account of the rule have this total? A rate rule has none, so its numbers hold 0.
fn is_total(total: u64, rule: &Rule) -> bool {
    total <= if rule.window.is_some() { 0 } else { MOST_TOTAL }
}
