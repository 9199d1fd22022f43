//! Where the numbers of a state stand, by the map in `docs/MEMORY.md`: part after part, a table with its count in front.

/// How many places the tables of roots and of rules, the register and the log have, a rule, an order and an entry with two numbers each, and the
/// accounts with one: four a rule where every rule is one of a whole root.
const MOST_ROOTS: usize = 64;
const MOST_RULES: usize = 256;
const MOST_ACCOUNTS: usize = 4 * MOST_RULES;
const REGISTER_PLACES: usize = 64;
const LOG_PLACES: usize = 512;

const MARK: usize = 0;
pub const CLOCK: usize = MARK + 1;
pub const FIRM: usize = CLOCK + 1;
pub const ROOT_COUNT: usize = FIRM + 1;
const ROOTS: usize = ROOT_COUNT + 1;
pub const RULE_COUNT: usize = ROOTS + MOST_ROOTS;
const RULES: usize = RULE_COUNT + 1;
const TOTALS: usize = RULES + 2 * MOST_RULES;
pub const FIRM_TRIPPED: usize = TOTALS + MOST_ACCOUNTS;
pub const FIRM_LOCKED: usize = FIRM_TRIPPED + 1;
pub const ROOTS_TRIPPED: usize = FIRM_LOCKED + 1;
pub const ROOTS_LOCKED: usize = ROOTS_TRIPPED + 1;
const ORDER_COUNT: usize = ROOTS_LOCKED + 1;
const REGISTER: usize = ORDER_COUNT + 1;
const ENTRY_COUNT: usize = REGISTER + 2 * REGISTER_PLACES;
const LOG: usize = ENTRY_COUNT + 1;
pub const SIZE: usize = LOG + 2 * LOG_PLACES;
