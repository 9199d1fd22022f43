//! How the register of orders sent away stands in lent numbers, and when it is sound. No other file knows it.

use crate::away::{Away, LAST_IDENTITY, MOST_REPORTS, REGISTER_PLACES};
use crate::is_premium;
use crate::memory::{joined, parted, rows_of, write_table};
use crate::profile::UNITS;
use crate::MOST_CONTRACTS;

/// How many numbers the register takes: how many orders there are, then two numbers each, in the order of their sending.
pub const PLACES: usize = 1 + 2 * REGISTER_PLACES;

/// Writes the register over zeros.
pub fn write(away: &[Away], numbers: &mut [u64]) {
    write_table(numbers, away.iter().map(order_numbers));
}

/// The orders of a firm with so many roots, if each is in range, their identities differ and the places that are not used hold 0.
pub fn read(numbers: &[u64], roots: u64) -> Option<Vec<Away>> {
    let orders = rows_of(numbers, 2)?.chunks(2).map(|pair| order_of(pair, roots)).collect::<Option<Vec<Away>>>()?;
    let differs = |(place, order): (usize, &Away)| orders[..place].iter().all(|other| other.identity != order.identity);
    let all_differ = orders.iter().enumerate().all(differs);
    all_differ.then_some(orders)
}

/// The two numbers of an order.
fn order_numbers(order: &Away) -> [u64; 2] {
    let first = joined(&[(order.identity, 16), (order.root, 6), (order.unit, 2), (order.reports, 5)]);
    [first, joined(&[(order.premium, 27), (order.contracts, 20)])]
}

/// The order of two numbers, if all its fields are in range.
fn order_of(numbers: &[u64], roots: u64) -> Option<Away> {
    let [spare, identity, root, unit, reports] = parted(numbers[0], [35, 16, 6, 2, 5]);
    let [above, premium, contracts] = parted(numbers[1], [17, 27, 20]);
    let known = identity <= LAST_IDENTITY && root < roots && unit < UNITS;
    let in_range = is_premium(premium) && contracts <= MOST_CONTRACTS && reports <= MOST_REPORTS;
    (spare == 0 && above == 0 && known && in_range).then_some(Away { identity, root, unit, premium, contracts, reports })
}
