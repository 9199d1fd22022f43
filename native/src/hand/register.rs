//! The test of the register of orders sent away.

use super::map::*;
use super::sound::{are_distinct, is_zero};

/// How many reports the orders sent away may still have, if they are in their ranges, no identity is there twice and the places not used hold 0.
#[inline(never)]
pub fn reports_of_orders(m: &State) -> Option<u64> {
    let count = m[REGISTER] as usize;
    let (used, unused) = m[ORDERS..ENTRY_COUNT].split_at(2 * count);
    if !is_zero(unused) {
        return None;
    }
    if count == 0 {
        return Some(0);
    }
    reports_if_good(used, m[ROOT_COUNT])
}

/// The same of the places that are used, by the number of roots.
/// A number out of its range leaves the top bit 1 in a difference, and all differences are or-ed together.
fn reports_if_good(orders: &[u64], roots: u64) -> Option<u64> {
    let last_root = roots.wrapping_sub(1);
    let (mut bad, mut all, mut identities) = (0u64, 0, [0; MOST_ORDERS]);
    for (order, own) in orders.chunks_exact(2).zip(&mut identities) {
        let (reports, premium, contracts) = (order[0] & REPORTS, order[1] >> 20, order[1] & CONTRACTS);
        *own = identity(order[0]);
        bad |= LAST_IDENTITY.wrapping_sub(*own) | last_root.wrapping_sub(order[0] >> 7 & 63);
        bad |= MOST_REPORTS.wrapping_sub(reports) | MOST_CONTRACTS.wrapping_sub(contracts);
        bad |= premium.wrapping_sub(1) | MOST_PREMIUM.wrapping_sub(premium);
        all += reports;
    }
    (bad >> 63 == 0 && are_distinct::<512>(&identities[..orders.len() / 2])).then_some(all)
}
