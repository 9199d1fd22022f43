//! The numbers of a state: where they stand, and how a rule and an entry are packed, by docs/MEMORY.md.

pub use second::place::*;
pub use second::profile::{MOST_ROOTS, MOST_RULES};

/// The numbers of a state.
pub type State = [u64; NUMBERS];

/// The places of the log.
pub const PLACES: u64 = second::unit::LOG_PLACES as u64;
pub const LAST_TIME: u64 = 86_399_999;
pub const MOST_PREMIUM: u64 = 100_000_000;
pub const MOST_CONTRACTS: u64 = 1_000_000;
pub const MOST_WINDOW: u64 = 86_400_000;
pub const MOST_TOTAL: u64 = 1_000_000_000_000_000_000;
pub const LAST_IDENTITY: u64 = 65_535;
pub const MOST_REPORTS: u64 = 16;
/// Ten-thousandths in a dollar.
pub const DOLLAR: u64 = 10_000;

/// Where the orders sent away begin, and how many there may be.
pub const ORDERS: usize = REGISTER + 1;
pub const MOST_ORDERS: usize = second::unit::REGISTER_PLACES;
/// The units of a root.
pub const UNITS: u64 = second::profile::UNITS;

/// The window of a rule's first number.
pub const WINDOW: u64 = (1 << 27) - 1;
/// Kind and scope of a rule's second number.
pub const ABSOLUTE: u64 = 1 << 10;
pub const SCOPE: u64 = 3 << 8;
/// The scope of a whole root, each unit counted for itself.
pub const WHOLE: u64 = 1 << 8;
/// The root of an entry's first number.
pub const ENTRY_ROOT: u64 = 63 << 4;
/// What an entry counts for: its root, the firm.
pub const FLAGS: u64 = 3;
/// The contracts of its second number, and of an order's.
pub const CONTRACTS: u64 = (1 << 20) - 1;

/// The reports still allowed of an order's first number.
pub const REPORTS: u64 = 31;

/// The identity of an order sent away, by its first number.
pub fn identity(first: u64) -> u64 {
    first >> 13
}

/// The time of an entry, by its first number.
pub fn entry_time(first: u64) -> u64 {
    first >> 10
}

/// The place of the first of some entries that is inside a window at a time; they are in order of time.
pub fn first_inside(entries: &[u64], window: u64, time: u64) -> usize {
    let (mut low, mut high) = (0, entries.len() / 2);
    while low < high {
        let middle = (low + high) / 2;
        if entry_time(entries[2 * middle]) + window > time {
            high = middle;
        } else {
            low = middle + 1;
        }
    }
    low
}

/// How many accounts a rule has, by its second number.
pub fn accounts(second: u64) -> usize {
    if second & SCOPE == WHOLE {
        UNITS as usize
    } else {
        1
    }
}

/// A rule as it stands.
#[derive(Clone, Copy, Default)]
pub struct Rule {
    pub first: u64,
    pub second: u64,
}

impl Rule {
    /// The rule at a place.
    pub fn at(m: &State, place: usize) -> Rule {
        Rule { first: m[RULES + 2 * place], second: m[RULES + 2 * place + 1] }
    }

    /// 0 notional, 1 volume, 2 count.
    pub fn measure(&self) -> u64 {
        self.second >> 11
    }

    pub fn is_absolute(&self) -> bool {
        self.second & ABSOLUTE != 0
    }

    pub fn is_firm(&self) -> bool {
        self.second & SCOPE == 0
    }

    /// Which of its accounts counts this unit, if it has one for it; a firm rule's is that of unit 0.
    pub fn account(&self, unit: u64) -> Option<usize> {
        match self.second >> 8 & 3 {
            0 => (unit == 0).then_some(0),
            1 => (unit < UNITS).then_some(unit as usize),
            _ => (unit == self.second & 3).then_some(0),
        }
    }

    pub fn window(&self) -> u64 {
        self.first & WINDOW
    }

    /// The limit in the measure that the rule counts in.
    pub fn ceiling(&self) -> u64 {
        (self.first >> 27) * if self.measure() == 0 { DOLLAR } else { 1 }
    }
}
