//! The rules of an armed unit, as the library tells them by their numbers.

use crate::event::Offer;
use crate::memory::Memory;
use crate::raw::{self, RuleRow};
use crate::unit::{Armed, Unit};
use crate::values::{Root, UnitOfRoot};

/// What a rule counts.
#[derive(Clone, Copy, Debug, PartialEq, Eq, Hash, PartialOrd, Ord)]
pub enum Measure {
    /// Premium times contracts, in ten-thousandths of a dollar.
    Notional,
    /// Contracts.
    Volume,
    /// Executions.
    Count,
}

/// Which fills a rule covers.
#[derive(Clone, Copy, Debug, PartialEq, Eq, Hash, PartialOrd, Ord)]
pub enum Scope {
    /// Every fill of the firm.
    Firm,
    /// All four units of a root, each of which counts for itself.
    Root(Root),
    /// One unit of a root.
    Unit(Root, UnitOfRoot),
}

impl Scope {
    /// The units for which a rule of this scope keeps a count of its own, as [`Unit::remaining`] takes them. A firm rule keeps one for all fills, and that
    /// is the count of unit 0.
    ///
    /// ```
    /// # use mbrumzheg::{Time, Unit};
    /// let unit = Unit::new().arm("ABCD,abs_vol,XYZ,100\nABCD,abs_vol,XYZ,70,,,P,T\nABCD,abs_vol,,500,,T").unwrap();
    /// let mut left = Vec::new();
    /// for rule in unit.rules() {
    ///     left.extend(rule.scope.units().iter().map(|of| unit.remaining(Time::START, rule.number, *of).unwrap()));
    /// }
    /// assert_eq!(left, [100, 100, 100, 100, 70, 500]);
    /// ```
    pub fn units(self) -> &'static [UnitOfRoot] {
        let all: &'static [UnitOfRoot] = &UnitOfRoot::ALL;
        match self {
            Scope::Firm => &all[..1],
            Scope::Root(_) => all,
            Scope::Unit(_, unit) => core::slice::from_ref(&all[unit as usize]),
        }
    }
}

/// A rule of the profile.
#[derive(Clone, Copy, Debug, PartialEq, Eq, Hash)]
pub struct Rule {
    /// Its number from 0, by line, as [`Unit::remaining`] takes it.
    pub number: u64,
    /// What it counts.
    pub measure: Measure,
    /// The limit in its measure, as [`Unit::remaining`] answers it: ten-thousandths of a dollar, contracts or executions. A rule of a whole root has as
    /// much for each of its units.
    pub limit: u64,
    /// The window of a rate rule in milliseconds; an absolute rule counts over the whole day.
    pub window: Option<u64>,
    /// What it covers.
    pub scope: Scope,
}

/// Limits of notional are told in whole dollars.
const DOLLAR: u64 = 10_000;

impl Rule {
    /// The type as a profile has it, like `rate_vol`.
    pub const fn type_name(&self) -> &'static str {
        match (self.window, self.measure) {
            (Some(_), Measure::Notional) => "rate_ntnl",
            (Some(_), Measure::Volume) => "rate_vol",
            (Some(_), Measure::Count) => "rate_count",
            (None, Measure::Notional) => "abs_ntnl",
            (None, Measure::Volume) => "abs_vol",
            (None, Measure::Count) => "abs_count",
        }
    }

    /// Whether an offer counts for it.
    pub fn covers(&self, offer: &Offer) -> bool {
        match self.scope {
            Scope::Firm => true,
            Scope::Root(root) => root == offer.root,
            Scope::Unit(root, unit) => root == offer.root && unit == offer.unit,
        }
    }

    /// The rule of a row; none for one that was refused.
    fn from_row(number: u64, row: RuleRow) -> Option<Rule> {
        let [0, rule_type, limit, window, root, unit] = row else { return None };
        let (measure, limit) = match rule_type % 3 {
            0 => (Measure::Notional, limit * DOLLAR),
            1 => (Measure::Volume, limit),
            _ => (Measure::Count, limit),
        };
        let scope = match (Root::new(root), UnitOfRoot::from_number(unit)) {
            (Err(_), _) => Scope::Firm,
            (Ok(root), Err(_)) => Scope::Root(root),
            (Ok(root), Ok(unit)) => Scope::Unit(root, unit),
        };
        Some(Rule { number, measure, limit, window: (rule_type < 3).then_some(window), scope })
    }
}

impl<M: Memory> Unit<M, Armed> {
    /// The rules of the profile, by number.
    ///
    /// ```
    /// # use mbrumzheg::{Measure, Rule, Scope, Unit};
    /// let unit = Unit::new().arm("ABCD,rate_vol,XYZ,500,1000\nABCD,abs_ntnl,,20000,,T").unwrap();
    /// let rules: Vec<Rule> = unit.rules().collect();
    /// assert_eq!((rules[0].type_name(), rules[0].limit, rules[0].window), ("rate_vol", 500, Some(1_000)));
    /// assert_eq!(rules[0].scope, Scope::Root(unit.root_named("XYZ").unwrap()));
    /// assert_eq!(rules[1], Rule { number: 1, measure: Measure::Notional, limit: 200_000_000, window: None, scope: Scope::Firm });
    /// ```
    pub fn rules(&self) -> impl Iterator<Item = Rule> + '_ {
        (0..self.rule_count()).map_while(|number| self.rule(number))
    }

    /// A rule by its number; none if the profile does not have it.
    pub fn rule(&self, number: u64) -> Option<Rule> {
        Rule::from_row(number, raw::rule(self.memory(), number))
    }
}
