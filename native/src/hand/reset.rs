//! What a reset does.

use super::map::*;

/// The last reset that is known: T and E.
pub const LAST_RESET: u64 = 6;

/// Carries out a reset of a root, of the firm or of both: 1 to 3 zero what is counted, and all of 1 to 6 unlock.
pub fn carry_out(m: &mut State, root: u64, reset: u64) {
    let zeroes = reset <= 3;
    let levels = if zeroes { reset } else { reset - 3 };
    let (of_root, of_firm) = (levels & 1 != 0, levels & 2 != 0);
    if of_root {
        m[ROOTS_TRIPPED] &= !(1 << root);
        m[ROOTS_LOCKED] &= !(1 << root);
    }
    if of_firm {
        m[FIRM_TRIPPED] = 0;
        m[FIRM_LOCKED] = 0;
    }
    if zeroes {
        zero_totals(m, root, of_root, of_firm);
        clear_flags(m, root, of_root, of_firm);
    }
}

/// Zeroes the totals of the root's rules, of firm rules, or of both.
fn zero_totals(m: &mut State, root: u64, of_root: bool, of_firm: bool) {
    let count = m[RULE_COUNT] as usize;
    let (rules, totals) = m[RULES..FIRM_TRIPPED].split_at_mut(2 * MOST_RULES);
    let mut first = 0;
    for rule in rules[..2 * count].chunks_exact(2) {
        let end = first + accounts(rule[1]);
        let is_firm = rule[1] & SCOPE == 0;
        let is_hit = if is_firm { of_firm } else { of_root && rule[1] >> 2 & 63 == root };
        if is_hit {
            totals[first..end].fill(0);
        }
        first = end;
    }
}

/// Clears the root flag in the root's entries, the firm flag in all, or both; entries that have none left leave the log.
fn clear_flags(m: &mut State, root: u64, of_root: bool, of_firm: bool) {
    let entries = m[ENTRY_COUNT] as usize;
    let log = &mut m[LOG..][..2 * entries];
    let firm = u64::from(of_firm);
    let mut gone = 0;
    for entry in log.chunks_exact_mut(2) {
        let hit = u64::from(of_root && entry[0] & ENTRY_ROOT == root << 4) << 1;
        entry[0] &= !(firm | hit);
        gone += usize::from(entry[0] & FLAGS == 0);
    }
    if gone > 0 {
        if gone < entries {
            move_up(log);
        }
        log[2 * (entries - gone)..].fill(0);
        m[ENTRY_COUNT] = (entries - gone) as u64;
    }
}

/// Moves the entries that have a flag to the front, in their order.
fn move_up(log: &mut [u64]) {
    let mut kept = 0;
    for place in (0..log.len()).step_by(2) {
        (log[kept], log[kept + 1]) = (log[place], log[place + 1]);
        kept += if log[place] & FLAGS == 0 { 0 } else { 2 };
    }
}
