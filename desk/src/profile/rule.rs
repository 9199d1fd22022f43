//! A rule of a profile: what it counts, which fills it covers, and how much it allows.

use crate::words::{self, Amount};
use mbrumzheg::{Offer, UnitOfRoot};

/// What a rule counts.
#[derive(Clone, Copy, Debug, PartialEq, Eq)]
pub enum Measure {
    /// Premium times contracts, in ten-thousandths of a dollar.
    Notional,
    /// Contracts.
    Volume,
    /// Executions.
    Count,
}

/// Which fills a rule covers.
#[derive(Clone, Copy, Debug, PartialEq, Eq)]
pub enum Scope {
    /// Every fill of the firm.
    Firm,
    /// Each of the four units of a root, counted for itself.
    Root(usize),
    /// One unit of a root.
    Unit(usize, UnitOfRoot),
}

impl Scope {
    /// Whether an offer is among these fills.
    pub fn covers(self, offer: &Offer) -> bool {
        let root = offer.root.number();
        match self {
            Scope::Firm => true,
            Scope::Root(own) => own as u64 == root,
            Scope::Unit(own, unit) => own as u64 == root && unit == offer.unit,
        }
    }

    /// The number of the level that a trip locks: 0 is the firm, and a root's is one more than its own.
    pub fn level(self) -> usize {
        match self {
            Scope::Firm => 0,
            Scope::Root(root) | Scope::Unit(root, _) => root + 1,
        }
    }
}

/// A rule, as its line has it.
#[derive(Clone, Debug, PartialEq, Eq)]
pub struct Rule {
    /// Its number from 0, by line.
    pub number: usize,
    /// The type as the profile spells it.
    pub kind: String,
    /// What it counts.
    pub measure: Measure,
    /// The limit, in the measure that Remaining answers in.
    pub limit: u64,
    /// The window of a rate rule, in milliseconds.
    pub window: Option<u64>,
    /// What it covers.
    pub scope: Scope,
    /// The place of its first count among all counts.
    pub first: usize,
}

impl Rule {
    /// Number, type and limit in words.
    pub fn words(&self) -> String {
        format!("rule {} {} {}", self.number, self.kind, self.limit_words())
    }

    /// The limit in words, with the window of a rate rule.
    pub fn limit_words(&self) -> String {
        let limit = self.amount(self.limit);
        match self.window {
            Some(window) => format!("{limit} in {}", words::span(window)),
            None => limit.to_string(),
        }
    }

    /// An amount of what the rule counts.
    pub fn amount(&self, number: u64) -> Amount {
        match self.measure {
            Measure::Notional => Amount::Dollars(number),
            Measure::Volume | Measure::Count => Amount::Pieces(number),
        }
    }

    /// How much so many contracts at a premium add.
    pub fn adds(&self, offer: &Offer, contracts: u64) -> u64 {
        match self.measure {
            Measure::Notional => offer.premium.ten_thousandths() * contracts,
            Measure::Volume => contracts,
            Measure::Count => u64::from(contracts > 0),
        }
    }

    /// How many contracts of an offer the rule allows where so much of its limit is left.
    pub fn allowance(&self, offer: &Offer, left: u64) -> u64 {
        let offered = offer.contracts.count();
        match self.measure {
            Measure::Notional => offered.min(left / offer.premium.ten_thousandths().max(1)),
            Measure::Volume => offered.min(left),
            Measure::Count if left > 0 => offered,
            Measure::Count => 0,
        }
    }

    /// The place of the count in which fills of a unit count.
    pub fn place_of(&self, unit: UnitOfRoot) -> usize {
        match self.scope {
            Scope::Root(_) => self.first + unit.number() as usize,
            Scope::Unit(..) | Scope::Firm => self.first,
        }
    }
}

/// A rule of the firm by the fields for its type, its limit and its time limit.
pub fn rule_of(kind: &str, limit: &str, window: &str) -> Rule {
    let measure = match kind.rsplit('_').next() {
        Some("ntnl") => Measure::Notional,
        Some("vol") => Measure::Volume,
        _ => Measure::Count,
    };
    let limit = limit.parse::<u64>().unwrap_or(0);
    Rule {
        number: 0,
        kind: kind.to_string(),
        measure,
        // limits are in whole dollars, Remaining in ten-thousandths
        limit: if measure == Measure::Notional { limit.saturating_mul(10_000) } else { limit },
        window: kind.starts_with("rate_").then(|| window.parse::<u64>().unwrap_or(0).max(100)),
        scope: Scope::Firm,
        first: 0,
    }
}

/// The unit that the letters of a line name.
pub fn unit_of(call_put: &str, month: &str) -> UnitOfRoot {
    match (call_put, month) {
        ("C", "F") => UnitOfRoot::CallsFront,
        ("C", _) => UnitOfRoot::CallsTrailing,
        (_, "F") => UnitOfRoot::PutsFront,
        _ => UnitOfRoot::PutsTrailing,
    }
}
