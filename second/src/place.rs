//! Where the numbers of a state stand in lent memory, by docs/MEMORY.md: part after part, a table with its count in front.

use crate::profile::{MOST_ROOTS, MOST_RULES};
use crate::register;
use crate::totals;
use crate::unit::LOG_PLACES;

/// The mark: 0 not armed, 1 armed.
pub const MARK: usize = 0;
/// The time of the last event.
pub const CLOCK: usize = MARK + 1;
/// The firm's name.
pub const FIRM: usize = CLOCK + 1;
/// How many roots there are, in front of their names.
pub const ROOT_COUNT: usize = FIRM + 1;
/// Where the roots' names begin.
pub const ROOTS: usize = ROOT_COUNT + 1;
/// How many rules there are, in front of them.
pub const RULE_COUNT: usize = ROOTS + MOST_ROOTS;
/// Where the rules begin, two numbers each.
pub const RULES: usize = RULE_COUNT + 1;
/// Where the totals begin, as `totals` places them.
pub const TOTALS: usize = RULES + 2 * MOST_RULES;
/// Has the firm tripped?
pub const FIRM_TRIPPED: usize = TOTALS + totals::PLACES;
/// Has the user locked the firm?
pub const FIRM_LOCKED: usize = FIRM_TRIPPED + 1;
/// The word of roots that have tripped.
pub const ROOTS_TRIPPED: usize = FIRM_LOCKED + 1;
/// The word of roots that the user has locked.
pub const ROOTS_LOCKED: usize = ROOTS_TRIPPED + 1;
/// Where the register of orders sent away begins, as `register` places it.
pub const REGISTER: usize = ROOTS_LOCKED + 1;
/// How many entries the log has, in front of them.
pub const ENTRY_COUNT: usize = REGISTER + register::PLACES;
/// Where the log's entries begin, two numbers each.
pub const LOG: usize = ENTRY_COUNT + 1;
/// How many numbers the state takes.
pub const NUMBERS: usize = LOG + 2 * LOG_PLACES;
