//! What each count has counted, reckoned from the grants and from what came back from away, so that a day costs one call of the library a record.
//!
//! The library's own numbers decide: tests hold this reckoning to them at every event, and no page is written where they differ at its end.

use crate::profile::{Profile, Rule};
use std::collections::VecDeque;

/// No total is higher.
const MOST_TOTAL: u64 = 1_000_000_000_000_000_000;

/// How much of a limit is used.
#[derive(Clone, Copy, Debug, Default, PartialEq, Eq)]
pub struct Used {
    /// By all fills.
    pub all: u64,
    /// By those of them that came back from away markets.
    pub away: u64,
}

impl Used {
    /// Used by a grant.
    pub fn granted(amount: u64) -> Used {
        Used { all: amount, away: 0 }
    }

    /// Used by a report from away.
    pub fn away(amount: u64) -> Used {
        Used { all: amount, away: amount }
    }

    fn plus(self, more: Used) -> Used {
        let held = |a: u64, b: u64| a.saturating_add(b).min(MOST_TOTAL);
        Used { all: held(self.all, more.all), away: held(self.away, more.away) }
    }

    fn less(self, gone: Used) -> Used {
        Used { all: self.all.saturating_sub(gone.all), away: self.away.saturating_sub(gone.away) }
    }
}

/// Whoever is told what a count has used from a time on.
pub trait Watch {
    /// From this time on, in milliseconds, so much of the limit is used by the count at a place.
    fn used(&mut self, count: usize, ms: u64, used: Used);
}

/// Nobody.
impl Watch for () {
    fn used(&mut self, _: usize, _: u64, _: Used) {}
}

/// What every count has counted.
pub struct Ledger {
    sums: Vec<Sum>,
}

#[derive(Clone, Default)]
struct Sum {
    used: Used,
    /// For a rate rule: when each fill leaves the window, and how much it takes with it.
    inside: VecDeque<(u64, Used)>,
}

impl Sum {
    /// Takes out the first fill, if its window ends up to a time.
    fn leaving(&mut self, ms: u64) -> Option<(u64, Used)> {
        self.inside.front().filter(|(end, _)| *end <= ms)?;
        self.inside.pop_front()
    }
}

impl Ledger {
    /// Nothing counted yet.
    pub fn of(profile: &Profile) -> Ledger {
        Ledger { sums: vec![Sum::default(); profile.counts.len()] }
    }

    /// What is left of a rule's limit in the count at a place.
    pub fn left(&self, rule: &Rule, count: usize) -> u64 {
        rule.limit.saturating_sub(self.used(count).all)
    }

    /// What the count at a place has used.
    pub fn used(&self, count: usize) -> Used {
        self.sums.get(count).map_or_else(Used::default, |sum| sum.used)
    }

    /// What it will have used at a time, if nothing is counted until then.
    pub fn used_at(&self, count: usize, ms: u64) -> Used {
        let Some(sum) = self.sums.get(count) else { return Used::default() };
        sum.inside.iter().take_while(|(end, _)| *end <= ms).fold(sum.used, |used, (_, gone)| used.less(*gone))
    }

    /// Lets the fills leave whose windows end up to a time.
    pub fn advance(&mut self, ms: u64, watch: &mut dyn Watch) {
        for (count, sum) in self.sums.iter_mut().enumerate() {
            while let Some((end, gone)) = sum.leaving(ms) {
                sum.used = sum.used.less(gone);
                if sum.inside.front().is_none_or(|(next, _)| *next > end) {
                    watch.used(count, end, sum.used);
                }
            }
        }
    }

    /// Counts a fill in one of a rule's counts.
    pub fn add(&mut self, rule: &Rule, count: usize, ms: u64, amount: Used, watch: &mut dyn Watch) {
        let Some(sum) = self.sums.get_mut(count).filter(|_| amount.all > 0) else { return };
        sum.used = sum.used.plus(amount);
        if let Some(window) = rule.window {
            sum.inside.push_back((ms + window, amount));
        }
        watch.used(count, ms, sum.used);
    }

    /// Takes back what was counted at a place.
    pub fn forget(&mut self, count: usize, ms: u64, watch: &mut dyn Watch) {
        let Some(sum) = self.sums.get_mut(count) else { return };
        *sum = Sum::default();
        watch.used(count, ms, Used::default());
    }
}
