//! Rules and what a profile gives.

/// The units of a root.
pub const UNITS: u64 = 4;
/// The call/put and month letters of each unit.
pub const UNIT_LETTERS: [[u8; 2]; UNITS as usize] = [*b"CF", *b"CT", *b"PF", *b"PT"];
/// The limit types: the name, whether it is a rate type, and what it counts.
pub const TYPES: [(&[u8], bool, Measure); 6] = [
    (b"rate_ntnl", true, Measure::Notional),
    (b"rate_vol", true, Measure::Volume),
    (b"rate_count", true, Measure::Count),
    (b"abs_ntnl", false, Measure::Notional),
    (b"abs_vol", false, Measure::Volume),
    (b"abs_count", false, Measure::Count),
];
/// Ten-thousandths in a dollar.
pub const DOLLAR: u64 = 10_000;

/// What a rule counts.
#[derive(Clone, Copy, Debug, PartialEq, Eq)]
pub enum Measure {
    /// Premium times contracts, in ten-thousandths of a dollar.
    Notional,
    /// Contracts.
    Volume,
    /// Executions.
    Count,
}

/// Whom a rule stands for.
#[derive(Clone, Copy, Debug, PartialEq, Eq)]
pub enum Level {
    /// Every fill of the firm.
    Firm,
    /// A root, numbered from 0, and one of its units, or all four, each counted for itself.
    Root { root: u64, unit: Option<u64> },
}

/// One rule of the profile.
#[derive(Clone, Debug, PartialEq, Eq)]
pub struct Rule {
    pub measure: Measure,
    /// The window in milliseconds of a rate rule; an absolute rule has none.
    pub window: Option<u64>,
    /// The limit in the rule's own measure: ten-thousandths, contracts or executions.
    pub limit: u64,
    pub level: Level,
}

impl Rule {
    /// The limit as a profile says it: whole dollars, contracts or executions.
    pub fn limit_value(&self) -> u64 {
        match self.measure {
            Measure::Notional => self.limit / DOLLAR,
            Measure::Volume | Measure::Count => self.limit,
        }
    }

    /// Does the rule cover a fill on this root and unit?
    pub fn covers(&self, root: u64, unit: u64) -> bool {
        self.account(root, unit).is_some()
    }

    /// The account that counts a fill on this root and unit: that of the unit, or 0 for a firm rule; none if the rule doesn't cover it.
    pub fn account(&self, root: u64, unit: u64) -> Option<u64> {
        match self.level {
            Level::Firm => Some(0),
            Level::Root { root: own, .. } => (own == root && self.has_account(unit)).then_some(unit),
        }
    }

    /// Has the rule this account: 0 for a firm rule, its own unit for a rule of one unit, any of the four for another root rule?
    pub fn has_account(&self, number: u64) -> bool {
        match self.level {
            Level::Firm => number == 0,
            Level::Root { unit: None, .. } => number < UNITS,
            Level::Root { unit: Some(own), .. } => number == own,
        }
    }

    /// Is it a firm rule?
    pub fn is_firm(&self) -> bool {
        self.level == Level::Firm
    }

    /// Is it a rule of this root, whichever units it covers?
    pub fn is_of_root(&self, root: u64) -> bool {
        matches!(self.level, Level::Root { root: own, .. } if own == root)
    }
}

/// What an accepted profile gives.
#[derive(Clone, Debug, PartialEq, Eq)]
pub struct Profile {
    pub firm: Vec<u8>,
    pub roots: Vec<Vec<u8>>,
    pub rules: Vec<Rule>,
}

impl Profile {
    /// The longest window of all rate rules, if there is a rate rule.
    pub fn longest_window(&self) -> Option<u64> {
        self.rules.iter().filter_map(|rule| rule.window).max()
    }

    /// The firm's bytes as one number, base 256.
    pub fn firm_number(&self) -> u64 {
        self.firm.iter().fold(0, |number, byte| number * 256 + u64::from(*byte))
    }
}
