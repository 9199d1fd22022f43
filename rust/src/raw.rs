//! The calls as the library exports them: numbers and slices in, a row of numbers out, the refusal first.
//!
//! Nothing here is unsafe to call: the library checks every number and the whole memory itself. The types of the rest of this
//! crate are the better way in; these functions are for whoever has numbers, as a comparison with another program does.

mod account;
mod call;
mod records;

use call::{call, calls};

pub use account::{accounted_close, accounted_lockout, accounted_offer, accounted_order, accounted_report, accounted_send};
pub use records::{narrow, read_record, read_record16, widen, write_record, write_record16};
pub use records::{Event16Numbers, Event16Row, EventNumbers};

/// How many 64-bit numbers the state takes. More may be lent; the rest is neither read nor written.
pub const SIZE: usize = crate::place::SIZE;

/// How many 64-bit numbers an account takes. More may be lent; the rest is neither read nor written.
pub const ACCOUNT_SIZE: usize = 520;

/// An answer: five numbers, the refusal first (0 if the call was not refused).
pub type Row = [u64; 5];

/// A rule: refusal, type, limit, window, root, unit.
pub type RuleRow = [u64; 6];

calls! {
    /// Arms memory from a profile: refusal, line, firm's name as a number, rules, roots.
    fn arm(memory: &mut [u64], profile: &[u8]) -> Row;

    /// Sets the state to zeros, whatever it held: refusal.
    fn clear(memory: &mut [u64]) -> Row;

    /// An order: refusal, verdict.
    fn order(memory: &mut [u64], time: u64, root: u64, reset: u64) -> Row;

    /// A lockout by the user: refusal, verdict.
    fn lockout(memory: &mut [u64], time: u64, level: u64, root: u64) -> Row;

    /// An offered fill: refusal, verdict, grant, root trip, firm trip.
    fn offer(memory: &mut [u64], time: u64, root: u64, unit: u64, premium: u64, contracts: u64) -> Row;

    /// An order sent away: refusal, verdict.
    fn send(memory: &mut [u64], time: u64, root: u64, unit: u64, premium: u64, contracts: u64, identity: u64, reports: u64) -> Row;

    /// A report of an order sent away: refusal, verdict, its contracts, root trip, firm trip.
    fn report(memory: &mut [u64], time: u64, identity: u64, contracts: u64) -> Row;

    /// The closing of an order sent away: refusal, verdict.
    fn close(memory: &mut [u64], time: u64, identity: u64) -> Row;

    /// What remains of a rule's limit on a unit (0 for a firm rule): refusal, the number.
    fn remaining(memory: &[u64], time: u64, rule: u64, unit: u64) -> Row;

    /// How the roots stand: refusal, tripped, locked by the user, locked at all, the lowest locked root (64 if none).
    fn status(memory: &[u64]) -> Row;

    /// The number of the root that has a name: refusal, the root.
    fn root_named(memory: &[u64], name: &[u8]) -> Row;

    /// Writes the name of a root to the front of a room of at least 6 bytes: refusal, how many bytes.
    fn root_name(memory: &[u64], root: u64, room: &mut [u8]) -> Row;

    /// A rule by its number: refusal, type (0 `rate_ntnl`, 1 `rate_vol`, 2 `rate_count`, 3 `abs_ntnl`, 4 `abs_vol`, 5 `abs_count`), limit (whole
    /// dollars, contracts or executions), window (0 for an absolute rule), root (64 for a firm rule), unit (4 for all four).
    fn rule(memory: &[u64], rule: u64) -> RuleRow;

    /// Writes the rules that are active as a profile's text to the front of a room: refusal, how many bytes; with 1 for a room that is short, how many
    /// it takes.
    fn profile(memory: &[u64], room: &mut [u8]) -> Row;

    /// Writes the text for verdict 1 or 2 into the room: refusal, how many bytes.
    fn text(verdict: u64, room: &mut [u8]) -> Row;
}
