//! What the rules count, what they allow, and what a fill adds.

use crate::answers::EventAnswer;
use crate::profile::{Measure, Rule};
use crate::state::{Armed, Entry, MOST_TOTAL, OPEN};

/// Contracts on a unit at a premium that passed their checks: offered, or filled away.
#[derive(Clone, Copy)]
pub(crate) struct Offer {
    pub time: u64,
    pub root: u64,
    pub unit: u64,
    pub premium: u64,
    pub contracts: u64,
}

/// What a rule allows of an offer, by the account that counts it.
pub(crate) struct Allowed {
    /// The rule's line, from 0.
    place: usize,
    account: u64,
    pub allowance: u64,
}

impl Armed {
    /// The counted amount of a rule's account: its total, or the sum over its window.
    pub(crate) fn counted(&self, place: usize, account: u64, time: u64) -> u64 {
        let rule = &self.profile.rules[place];
        match rule.window {
            None => self.totals[place][account as usize],
            Some(window) => self
                .log
                .iter()
                .filter(|entry| rule.account(entry.root, entry.unit) == Some(account))
                .filter(|entry| if rule.is_firm() { entry.counts_for_firm } else { entry.counts_for_root })
                .filter(|entry| entry.time + window > time)
                .map(|entry| added(rule, entry.premium, entry.contracts))
                .sum(),
        }
    }

    /// The rules that cover a fill on this root and unit, by line, each with the account that counts it.
    fn covering(&self, root: u64, unit: u64) -> impl Iterator<Item = (usize, u64)> + '_ {
        let rules = self.profile.rules.iter().enumerate();
        rules.filter_map(move |(place, rule)| Some((place, rule.account(root, unit)?)))
    }

    /// What each rule that covers the offer allows.
    pub(crate) fn allowances(&self, offer: &Offer) -> Vec<Allowed> {
        let allowed = |(place, account): (usize, u64)| {
            let counted = self.counted(place, account, offer.time);
            Allowed { place, account, allowance: allowance(&self.profile.rules[place], counted, offer.premium, offer.contracts) }
        };
        self.covering(offer.root, offer.unit).map(allowed).collect()
    }

    /// Counts a fill: totals of covering absolute rules rise, held at the most, and the log takes it if there is a rate rule.
    pub(crate) fn fill(&mut self, offer: &Offer, grant: u64) {
        for (rule, totals) in self.profile.rules.iter().zip(&mut self.totals) {
            if let (None, Some(account)) = (rule.window, rule.account(offer.root, offer.unit)) {
                let total = &mut totals[account as usize];
                *total = (*total + added(rule, offer.premium, grant)).min(MOST_TOTAL);
            }
        }
        if let Some(longest) = self.profile.longest_window() {
            // The log is in order of time, so the entries that leave stand in front.
            while self.log.front().is_some_and(|entry| entry.time + longest <= offer.time) {
                self.log.pop_front();
            }
            self.log.push_back(Entry {
                time: offer.time,
                root: offer.root,
                unit: offer.unit,
                premium: offer.premium,
                contracts: grant,
                counts_for_root: true,
                counts_for_firm: true,
            });
        }
    }

    /// The rules that an offer trips: those that cut it to its grant, and absolute ones whose total is then their limit.
    pub(crate) fn tripped_by_offer(&self, allowances: &[Allowed], grant: u64, contracts: u64) -> Vec<usize> {
        let trips = |allowed: &&Allowed| {
            let rule = &self.profile.rules[allowed.place];
            let cuts = grant < contracts && allowed.allowance == grant;
            cuts || rule.window.is_none() && self.totals[allowed.place][allowed.account as usize] == rule.limit
        };
        allowances.iter().filter(trips).map(|allowed| allowed.place).collect()
    }

    /// The rules that a report trips: absolute ones at or above their limit, and rate rules above theirs.
    pub(crate) fn tripped_by_report(&self, fill: &Offer) -> Vec<usize> {
        let trips = |(place, account): &(usize, u64)| {
            let rule = &self.profile.rules[*place];
            let counted = self.counted(*place, *account, fill.time);
            counted > rule.limit || rule.window.is_none() && counted == rule.limit
        };
        self.covering(fill.root, fill.unit).filter(trips).map(|(place, _)| place).collect()
    }

    /// Locks the levels of the rules that trip, and answers the grant and which levels those are.
    pub(crate) fn trip(&mut self, root: u64, tripped: &[usize], grant: u64) -> EventAnswer {
        let is_firm = |place: &usize| self.profile.rules[*place].is_firm();
        let root_trip = !tripped.iter().all(is_firm);
        let firm_trip = tripped.iter().any(is_firm);
        self.roots[root as usize].tripped |= root_trip;
        self.firm.tripped |= firm_trip;
        EventAnswer { refusal: 0, verdict: OPEN, grant, root_trip: root_trip.into(), firm_trip: firm_trip.into() }
    }
}

/// What a fill of this many contracts adds to a rule, in the rule's measure.
fn added(rule: &Rule, premium: u64, contracts: u64) -> u64 {
    match rule.measure {
        Measure::Notional => premium * contracts,
        Measure::Volume => contracts,
        Measure::Count => u64::from(contracts > 0),
    }
}

/// The largest number from 0 to the most that keeps counted plus added at or below the limit, 0 if none does.
fn allowance(rule: &Rule, counted: u64, premium: u64, most: u64) -> u64 {
    let keeps = |number: u64| u128::from(counted) + u128::from(added(rule, premium, number)) <= u128::from(rule.limit);
    // A smaller number adds no more, so halving finds the last number that keeps the limit.
    let mut low = 0;
    let mut high = most;
    while low < high {
        let middle = (low + high).div_ceil(2);
        if keeps(middle) {
            low = middle;
        } else {
            high = middle - 1;
        }
    }
    low
}
