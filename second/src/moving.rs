//! Records of 12 bytes moved to the form of 16 bytes, and back.

use crate::records::{self, Record, WriteAnswer, LOCKOUT};
use crate::records16::{self, Record16, MILLISECOND};

/// The refusal of a record that doesn't fit the old form.
const NOT_OLD: u64 = 20;
/// The last reset of the old form.
const LAST_OLD_RESET: u64 = 3;

/// Moves a record of 12 bytes to the first sixteen bytes of the room.
pub fn widen(bytes: &[u8], room: &mut [u8]) -> WriteAnswer {
    let read = records::read(bytes);
    if read.refusal != 0 {
        return WriteAnswer { refusal: read.refusal };
    }
    records16::write(&widened(&read.record), room)
}

/// Moves a record of 16 bytes that fits the old form to the first twelve bytes of the room.
pub fn narrow(bytes: &[u8], room: &mut [u8]) -> WriteAnswer {
    let read = records16::read(bytes);
    if read.refusal != 0 {
        return WriteAnswer { refusal: read.refusal };
    }
    match narrowed(&read.record) {
        Some(record) => records::write(&record, room),
        None => WriteAnswer { refusal: NOT_OLD },
    }
}

/// The record with its time in microseconds.
fn widened(record: &Record) -> Record16 {
    let Record { kind, time, root, unit, premium, contracts, reset, level } = *record;
    Record16 { kind, time: time * MILLISECOND, root, unit, premium, contracts, reset, level, identity: 0, reports: 0 }
}

/// The record in the old form: none if its kind or reset is new or its time is not in whole milliseconds.
fn narrowed(record: &Record16) -> Option<Record> {
    let Record16 { kind, time, root, unit, premium, contracts, reset, level, .. } = *record;
    let is_old = kind <= LOCKOUT && time.is_multiple_of(MILLISECOND) && reset <= LAST_OLD_RESET;
    is_old.then_some(Record { kind, time: time / MILLISECOND, root, unit, premium, contracts, reset, level })
}
