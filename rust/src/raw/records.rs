//! Event records: with microseconds, of the old form, and moved from one to the other.

use super::{call, calls, Row};

/// An event's numbers: kind, time in microseconds, root, unit, premium, contracts, reset, level, identity, reports. One that its kind does not use is 0.
pub type Event16Numbers = [u64; 10];

/// What reading a record answers: refusal, the event's numbers, and two that are 0.
pub type Event16Row = [u64; 13];

/// An event's numbers as a record of the old form has them: kind, time in milliseconds, root, unit, premium, contracts, reset, level. One that its kind does
/// not use is 0.
pub type EventNumbers = [u64; 8];

calls! {
    /// Reads an event record: refusal, and the event's numbers (zeros if refused).
    fn read_record16(bytes: &[u8]) -> Event16Row;

    /// Writes an event's record to the first 16 bytes of the room: refusal.
    fn write_record16(
        [kind, time, root, unit, premium, contracts, reset, level, identity, reports]: Event16Numbers, room: &mut [u8]
    ) -> Row;

    /// Writes an event's record of the old form to the first 12 bytes of the room: refusal.
    fn write_record([kind, time, root, unit, premium, contracts, reset, level]: EventNumbers, room: &mut [u8]) -> Row;

    /// Moves a record of the old form to the first 16 bytes of the room, as one with microseconds: refusal.
    fn widen(bytes: &[u8], room: &mut [u8]) -> Row;

    /// Moves a record to the first 12 bytes of the room, as one of the old form: refusal.
    fn narrow(bytes: &[u8], room: &mut [u8]) -> Row;
}

mod row {
    use super::{call, calls};

    calls! {
        /// Reads an event record of the old form: the row.
        fn read_record(bytes: &[u8]) -> [u64; 9];
    }
}

/// Reads an event record of the old form: refusal, and the event's numbers (zeros if refused).
#[inline]
pub fn read_record(bytes: &[u8]) -> (u64, EventNumbers) {
    let [refusal, numbers @ ..] = row::read_record(bytes);
    (refusal, numbers)
}
