//! The history of a day, kept from its calls and answers alone.

use second::gen::{self, Call};
use second::profile::{self, Level, Measure, Rule};
use second::unit::{Away, Unit};

/// A fill of the day, which nothing ever leaves.
pub struct Fill {
    pub time: u64,
    pub root: u64,
    pub unit: u64,
    pub premium: u64,
    pub contracts: u64,
    /// Did it come back from an away market?
    pub is_report: bool,
}

/// The whole history, the places from which roots and firm count again, what is locked, and what is open away.
pub struct History {
    pub rules: Vec<Rule>,
    pub fills: Vec<Fill>,
    pub root_from: Vec<usize>,
    pub firm_from: usize,
    pub root_locked: Vec<bool>,
    pub firm_locked: bool,
    pub sent: Vec<Away>,
}

impl History {
    /// A day that begins with this profile.
    pub fn new(text: &[u8]) -> History {
        let profile = profile::read(text).unwrap();
        let roots = profile.roots.len();
        let (root_from, root_locked) = (vec![0; roots], vec![false; roots]);
        let (fills, sent) = (Vec::new(), Vec::new());
        History { rules: profile.rules, fills, root_from, firm_from: 0, root_locked, firm_locked: false, sent }
    }

    /// Takes up a call that was not refused, with its verdict, grant and trips.
    pub fn take(&mut self, call: Call, [verdict, grant, root_trip, firm_trip]: [u64; 4]) {
        match call {
            Call::Order { root, reset, .. } => self.reset(root as usize, reset),
            Call::Lockout { level: 0, root, .. } => self.root_locked[root as usize] = true,
            Call::Lockout { .. } => self.firm_locked = true,
            Call::Offer { time, root, unit, premium, .. } => {
                let fill = Fill { time, root, unit, premium, contracts: grant, is_report: false };
                self.fill(fill, [root_trip, firm_trip]);
            }
            Call::Send { order, .. } if verdict == 0 => self.sent.push(order),
            Call::Report { time, identity, contracts } => {
                assert_eq!(grant, contracts);
                let order = self.sent.iter_mut().find(|order| order.identity == identity).unwrap();
                order.contracts -= contracts;
                order.reports -= 1;
                let Away { root, unit, premium, .. } = *order;
                self.fill(Fill { time, root, unit, premium, contracts, is_report: true }, [root_trip, firm_trip]);
            }
            Call::Close { identity, .. } => self.sent.retain(|order| order.identity != identity),
            _ => {}
        }
    }

    /// Keeps a fill of any contracts, and locks what trips.
    fn fill(&mut self, fill: Fill, [root_trip, firm_trip]: [u64; 2]) {
        self.root_locked[fill.root as usize] |= root_trip == 1;
        self.firm_locked |= firm_trip == 1;
        if fill.contracts > 0 {
            self.fills.push(fill);
        }
    }

    /// Resets 1 to 3 count anew from here; these and 4 to 6 unlock.
    fn reset(&mut self, root: usize, reset: u64) {
        if [1, 3].contains(&reset) {
            self.root_from[root] = self.fills.len();
        }
        if [2, 3].contains(&reset) {
            self.firm_from = self.fills.len();
        }
        self.root_locked[root] &= ![1, 3, 4, 6].contains(&reset);
        self.firm_locked &= ![2, 3, 5, 6].contains(&reset);
    }

    /// The verdict on a root that the locks give.
    pub fn verdict(&self, root: u64) -> u64 {
        match (self.firm_locked, self.root_locked[root as usize]) {
            (true, _) => 1,
            (false, true) => 2,
            (false, false) => 0,
        }
    }

    /// What the rule counts at a time on a unit of such fills; a firm rule counts all units as 0.
    pub fn counted(&self, rule: &Rule, unit: u64, time: u64, is_such: impl Fn(&Fill) -> bool) -> u64 {
        let from = match rule.level {
            Level::Firm => self.firm_from,
            Level::Root { root, .. } => self.root_from[root as usize],
        };
        let covered = |fill: &&Fill| match rule.level {
            Level::Firm => true,
            Level::Root { root, .. } => root == fill.root && unit == fill.unit,
        };
        let inside = |fill: &&Fill| rule.window.is_none_or(|window| time - fill.time < window);
        let added = |fill: &Fill| match rule.measure {
            Measure::Notional => fill.premium * fill.contracts,
            Measure::Volume => fill.contracts,
            Measure::Count => 1,
        };
        self.fills[from..].iter().filter(covered).filter(inside).filter(|fill| is_such(fill)).map(added).sum()
    }

    /// Has the profile a rate rule?
    pub fn has_rate_rule(&self) -> bool {
        self.rules.iter().any(|rule| rule.window.is_some())
    }

    /// Fills inside the longest window that still count for root or firm, and the reports still allowed.
    pub fn places_used(&self, time: u64) -> u64 {
        let longest = self.rules.iter().filter_map(|rule| rule.window).max().unwrap_or(0);
        let counts = |place: usize, fill: &Fill| place >= self.firm_from || place >= self.root_from[fill.root as usize];
        let inside = |(place, fill): &(usize, &Fill)| fill.time + longest > time && counts(*place, fill);
        let reports: u64 = self.sent.iter().map(|order| order.reports).sum();
        self.fills.iter().enumerate().filter(inside).count() as u64 + reports
    }
}

/// The units that Remaining takes for a rule.
pub fn units(rule: &Rule) -> Vec<u64> {
    match rule.level {
        Level::Firm => vec![0],
        Level::Root { unit: Some(unit), .. } => vec![unit],
        Level::Root { unit: None, .. } => vec![0, 1, 2, 3],
    }
}

/// The calls of a seed's day after it was armed with its profile, which stays.
pub fn calls(seed: u64, text: &[u8]) -> impl Iterator<Item = Call> {
    let other = |call: &Call| !matches!(call, Call::Clear | Call::Arm { .. } | Call::ArmValid { .. });
    gen::events_near(seed, 1_500, text).into_iter().filter(other)
}

/// A unit armed with the profile, and its empty history.
pub fn begun(text: &[u8]) -> (Unit, History) {
    let mut unit = Unit::new();
    assert_eq!(unit.arm(text).refusal, 0);
    (unit, History::new(text))
}
