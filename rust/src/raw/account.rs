//! The calls that keep the day's account: numbers that are lent beside the memory. Each answers as the plain call does, refuses with 1 for a short account
//! too, with 2 for one that has a figure above 10^18, and with 21, before the event is applied, where a figure would pass that.

use super::{call, calls, Row};

calls! {
    /// An order: refusal, verdict.
    fn accounted_order(memory: &mut [u64], account: &mut [u64], time: u64, root: u64, reset: u64) -> Row;

    /// A lockout by the user: refusal, verdict.
    fn accounted_lockout(memory: &mut [u64], account: &mut [u64], time: u64, level: u64, root: u64) -> Row;

    /// An offered fill: refusal, verdict, grant, root trip, firm trip.
    fn accounted_offer(memory: &mut [u64], account: &mut [u64], time: u64, root: u64, unit: u64, premium: u64, contracts: u64) -> Row;

    /// An order sent away: refusal, verdict.
    fn accounted_send(
        memory: &mut [u64], account: &mut [u64], time: u64, root: u64, unit: u64, premium: u64, contracts: u64, identity: u64, reports: u64
    ) -> Row;

    /// A report of an order sent away: refusal, verdict, its contracts, root trip, firm trip.
    fn accounted_report(memory: &mut [u64], account: &mut [u64], time: u64, identity: u64, contracts: u64) -> Row;

    /// The closing of an order sent away: refusal, verdict.
    fn accounted_close(memory: &mut [u64], account: &mut [u64], time: u64, identity: u64) -> Row;
}
