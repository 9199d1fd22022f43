//! What rules have counted and allow: one pass over the log for all rules of a level, from the newest entry on.

use super::map::*;
use super::Trips;

/// An offered fill.
pub struct Offer {
    pub time: u64,
    pub root: u64,
    pub unit: u64,
    pub premium: u64,
    pub contracts: u64,
}

/// The least that the rules of the root allow, and the least that those of the firm do.
pub struct Cuts {
    pub root: u64,
    pub firm: u64,
}

/// Which entries count for a level: those whose digits under a mask are these.
#[derive(Clone, Copy)]
struct Sieve {
    mask: u32,
    want: u32,
}

impl Sieve {
    /// The sieve of the firm, through which every fill passes that counts there.
    const FIRM: Sieve = Sieve { mask: 1, want: 1 };

    /// The sieve of one unit of a root.
    fn of_unit(root: u64, unit: u64) -> Sieve {
        Sieve { mask: ENTRY_ROOT as u32 | 14, want: (root << 4 | unit << 2 | 2) as u32 }
    }

    /// The second number of an entry that passes, else 0.
    fn amount(self, entry: &[u64]) -> u64 {
        entry[1] & u64::from(entry[0] as u32 & self.mask == self.want).wrapping_neg()
    }

    /// What those of some entries that pass count in one measure.
    #[inline(never)]
    fn sum(self, entries: &[u64], measure: u64) -> u64 {
        let amounts = entries.chunks_exact(2).map(|entry| self.amount(entry));
        match measure {
            0 => amounts.map(notional).sum(),
            1 => amounts.map(|amount| amount & CONTRACTS).sum(),
            _ => amounts.map(|amount| u64::from(amount != 0)).sum(),
        }
    }
}

/// The notional of an entry's second number.
fn notional(amount: u64) -> u64 {
    u64::from((amount >> 20) as u32) * (amount & CONTRACTS)
}

/// What some entries count in each measure.
#[derive(Clone, Copy, Default)]
struct Sums {
    notional: u64,
    volume: u64,
    count: u64,
}

impl Sums {
    /// Adds those entries that pass a sieve.
    #[inline(never)]
    fn add(&mut self, entries: &[u64], sieve: Sieve) {
        for entry in entries.chunks_exact(2) {
            let amount = sieve.amount(entry);
            self.notional += notional(amount);
            self.volume += amount & CONTRACTS;
            self.count += u64::from(entry[0] as u32 & sieve.mask == sieve.want);
        }
    }

    /// The sum in a measure.
    fn of(&self, measure: u64) -> u64 {
        match measure {
            0 => self.notional,
            1 => self.volume,
            _ => self.count,
        }
    }
}

/// The place of the oldest entry inside a rule's window; most often all are.
fn start_of(log: &[u64], rule: &Rule, time: u64) -> usize {
    match log.first() {
        Some(oldest) if entry_time(*oldest) + rule.window() <= time => first_inside(log, rule.window(), time),
        _ => 0,
    }
}

/// The log's entries.
fn entries_of(m: &State) -> &[u64] {
    &m[LOG..][..2 * m[ENTRY_COUNT] as usize]
}

/// What the rule at a place has counted at a time, in one of its accounts, which is that of a unit.
pub fn counted_by(m: &State, place: usize, account: usize, unit: u64, time: u64) -> u64 {
    let rule = Rule::at(m, place);
    if rule.is_absolute() {
        let before = m[RULES..][..2 * place].chunks_exact(2).map(|rule| accounts(rule[1])).sum::<usize>();
        return m[TOTALS + before + account];
    }
    let log = entries_of(m);
    let sieve = if rule.is_firm() { Sieve::FIRM } else { Sieve::of_unit(rule.second >> 2 & 63, unit) };
    sieve.sum(&log[2 * start_of(log, &rule, time)..], rule.measure())
}

/// The rules that cover an offer, at most 6 of its root and 10 of the firm, by line, and where the totals of the accounts that count it stand.
pub struct Covering {
    rules: [Rule; 16],
    totals: [usize; 16],
    length: usize,
}

impl Covering {
    /// The rules of a sound state that cover an offer.
    pub fn new(m: &State, o: &Offer) -> Covering {
        let (whole, one) = (WHOLE | o.root << 2, 2 << 8 | o.root << 2 | o.unit);
        let mut covering = Covering { rules: [Rule::default(); 16], totals: [0; 16], length: 0 };
        let rules = &m[RULES..][..2 * m[RULE_COUNT] as usize];
        let mut total = TOTALS;
        for rule in rules.chunks_exact(2) {
            let scope = rule[1] & 0x3FF;
            if scope & SCOPE == 0 || scope == whole || scope == one {
                covering.rules[covering.length] = Rule { first: rule[0], second: rule[1] };
                covering.totals[covering.length] = total + if scope == whole { o.unit as usize } else { 0 };
                covering.length += 1;
            }
            total += accounts(rule[1]);
        }
        covering
    }

    /// The rules.
    fn rules(&self) -> &[Rule] {
        &self.rules[..self.length]
    }

    /// The least that the rules of each level allow.
    pub fn cuts(&self, m: &State, o: &Offer) -> Cuts {
        let mut cuts = Cuts { root: o.contracts, firm: o.contracts };
        for (rule, counted) in self.rules().iter().zip(self.counted(m, o)) {
            let cut = if rule.is_firm() { &mut cuts.firm } else { &mut cuts.root };
            *cut = (*cut).min(allowance(rule, counted, o));
        }
        cuts
    }

    /// The totals of covering absolute rules rise; which levels have a rule at its limit then.
    pub fn credit(&self, m: &mut State, o: &Offer, grant: u64) -> Trips {
        let mut trips = Trips::default();
        let added = [o.premium * grant, grant, u64::from(grant > 0)];
        for (rule, place) in self.rules().iter().zip(&self.totals).filter(|(rule, _)| rule.is_absolute()) {
            let total = &mut m[*place];
            *total += added[rule.measure() as usize];
            let reached = *total == rule.ceiling();
            trips.firm |= reached && rule.is_firm();
            trips.root |= reached && !rule.is_firm();
        }
        trips
    }

    /// A fill from an away market is counted, past any limit: totals of covering absolute rules rise, held at the most. Which levels have a rule that
    /// trips: an absolute one at its limit or above, a rate rule above.
    pub fn report(&self, m: &mut State, o: &Offer) -> Trips {
        let mut trips = Trips::default();
        let added = [o.premium * o.contracts, o.contracts, 1];
        let counted = self.counted(m, o);
        for ((rule, place), counted) in self.rules().iter().zip(&self.totals).zip(counted) {
            let sum = (counted + added[rule.measure() as usize]).min(MOST_TOTAL);
            let mut least = rule.ceiling() + 1;
            if rule.is_absolute() {
                m[*place] = sum;
                least -= 1;
            }
            trips.firm |= sum >= least && rule.is_firm();
            trips.root |= sum >= least && !rule.is_firm();
        }
        trips
    }

    /// What each rule has counted: rate rules by level, the shortest window first, so that a sum goes on from the one before.
    fn counted(&self, m: &State, o: &Offer) -> [u64; 16] {
        let log = entries_of(m);
        let (mut counted, mut keys, mut length) = ([0; 16], [0; 16], 0);
        for (place, rule) in self.rules().iter().enumerate() {
            if rule.is_absolute() {
                counted[place] = m[self.totals[place]];
            } else if !log.is_empty() {
                let newest_first = PLACES - start_of(log, rule, o.time) as u64;
                keys[length] = u64::from(!rule.is_firm()) << 16 | newest_first << 4 | place as u64;
                length += 1;
            }
        }
        keys[..length].sort_unstable();
        self.count_by(log, o, &keys[..length], &mut counted);
        counted
    }

    /// Counts rate rules in the order of their keys: firm or root, how far back their windows go, place.
    fn count_by(&self, log: &[u64], o: &Offer, keys: &[u64], counted: &mut [u64; 16]) {
        let sieves = [Sieve::FIRM, Sieve::of_unit(o.root, o.unit)];
        if let [key] = keys {
            let place = (key & 15) as usize;
            counted[place] = sieves[(key >> 16) as usize].sum(&log[start_in(*key)..], self.rules[place].measure());
            return;
        }
        let (mut level, mut end, mut sums) = (u64::MAX, 0, Sums::default());
        for key in keys {
            let place = (key & 15) as usize;
            if key >> 16 != level {
                (level, end, sums) = (key >> 16, log.len(), Sums::default());
            }
            let start = start_in(*key);
            if start < end {
                sums.add(&log[start..end], sieves[level as usize]);
                end = start;
            }
            counted[place] = sums.of(self.rules[place].measure());
        }
    }
}

/// The number of the log at which a key's window begins.
fn start_in(key: u64) -> usize {
    2 * (PLACES - (key >> 4 & 0xFFF)) as usize
}

/// How much of an offer a rule allows that has counted so much.
fn allowance(rule: &Rule, counted: u64, o: &Offer) -> u64 {
    let left = rule.ceiling().saturating_sub(counted);
    match rule.measure() {
        0 if o.premium * o.contracts <= left => o.contracts,
        0 => left / o.premium,
        1 => left.min(o.contracts),
        _ => {
            if left == 0 {
                0
            } else {
                o.contracts
            }
        }
    }
}
