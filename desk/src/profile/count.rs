//! What the rules count. Each unit of a root counts for itself: a rule of a root without call/put and month has a count for each of the four units, any
//! other rule has one.

use crate::profile::rule::{Rule, Scope};
use crate::words;
use mbrumzheg::UnitOfRoot;

/// One of the counts that a rule keeps.
#[derive(Clone, Copy, Debug, PartialEq, Eq)]
pub struct Count {
    /// Its place among all counts: in the rules' order, and then the units'.
    pub place: usize,
    /// The rule's number.
    pub rule: usize,
    /// What it counts alone: the firm's fills, or those of one unit.
    pub of: Scope,
    /// Whether the rule keeps others beside it.
    pub is_one_of_four: bool,
}

impl Count {
    /// The counts of a rule.
    pub fn all_of(rule: &Rule) -> Vec<Count> {
        let count = |at: usize, of: Scope| Count { place: rule.first + at, rule: rule.number, of, is_one_of_four: of != rule.scope };
        match rule.scope {
            Scope::Root(root) => UnitOfRoot::ALL.iter().enumerate().map(|(at, unit)| count(at, Scope::Unit(root, *unit))).collect(),
            scope => vec![count(0, scope)],
        }
    }

    /// The unit that it counts; none for the firm, which counts every fill.
    pub fn unit(&self) -> Option<UnitOfRoot> {
        match self.of {
            Scope::Unit(_, unit) => Some(unit),
            Scope::Root(_) | Scope::Firm => None,
        }
    }

    /// The unit that the library's Remaining takes for it: for the firm that is unit 0.
    pub fn asked_unit(&self) -> UnitOfRoot {
        self.unit().unwrap_or(UnitOfRoot::CallsFront)
    }

    /// The level that a trip of it locks: a unit's is its whole root.
    pub fn level(&self) -> usize {
        self.of.level()
    }

    /// Its rule by number alone, with the unit if the rule has others.
    pub fn short_words(&self) -> String {
        match self.unit().filter(|_| self.is_one_of_four) {
            Some(unit) => format!("rule {} on {}", self.rule, words::unit(unit)),
            None => format!("rule {}", self.rule),
        }
    }

    /// What its picture is called within a page.
    pub fn id(&self) -> String {
        self.short_words().replace(" on ", "-").replace("rule ", "rule").replace(' ', "-")
    }
}
