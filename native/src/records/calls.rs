//! The calls on event records of the proved library, of the second program and by hand.

use second::moving;
use second::records::{self, Record};
use second::records16::{self, Record16};

use super::forms::{Event, Form, NEW};
use crate::{hand, Row};

/// The calls on records: refusal and numbers of so many bytes; the row of writing numbers into a room, or of moving bytes there.
#[derive(Clone, Copy)]
pub struct Calls<'a> {
    pub read: &'a dyn Fn(&[u8]) -> [u64; 9],
    pub write: &'a dyn Fn([u64; 8], &mut [u8]) -> Row,
    pub read16: &'a dyn Fn(&[u8]) -> [u64; 13],
    pub write16: &'a dyn Fn([u64; 10], &mut [u8]) -> Row,
    pub widen: &'a dyn Fn(&[u8], &mut [u8]) -> Row,
    pub narrow: &'a dyn Fn(&[u8], &mut [u8]) -> Row,
}

/// The second program's.
pub const SECOND: Calls = Calls {
    read: &|bytes| records::read(bytes).numbers(),
    write: &|event, room| second_write(event, room),
    read16: &|bytes| records16::read(bytes).numbers(),
    write16: &|event, room| second_write16(event, room),
    widen: &|bytes, room| row(moving::widen(bytes, room).refusal),
    narrow: &|bytes, room| row(moving::narrow(bytes, room).refusal),
};

/// The proved library's.
pub const LIBRARY: Calls = Calls {
    read: &crate::read_record,
    write: &crate::write_record,
    read16: &crate::read_record16,
    write16: &crate::write_record16,
    widen: &crate::widen,
    narrow: &crate::narrow,
};

/// The hand-written ones.
pub const BY_HAND: Calls = Calls {
    read: &hand::read_record,
    write: &|event, room| row(hand::write_record(event, room)),
    read16: &hand::read_record16,
    write16: &|event, room| row(hand::write_record16(event, room)),
    widen: &|bytes, room| row(hand::widen(bytes, room)),
    narrow: &|bytes, room| row(hand::narrow(bytes, room)),
};

/// The row of a refusal.
fn row(refusal: u64) -> Row {
    [refusal, 0, 0, 0, 0]
}

fn second_write([kind, time, root, unit, premium, contracts, reset, level]: [u64; 8], room: &mut [u8]) -> Row {
    row(records::write(&Record { kind, time, root, unit, premium, contracts, reset, level }, room).refusal)
}

fn second_write16(event: Event, room: &mut [u8]) -> Row {
    let [kind, time, root, unit, premium, contracts, reset, level, identity, reports] = event;
    row(records16::write(&Record16 { kind, time, root, unit, premium, contracts, reset, level, identity, reports }, room).refusal)
}

impl Calls<'_> {
    /// Reads bytes as a call's form has them: the refusal, then the event's numbers and two more.
    pub fn read(&self, form: &Form, bytes: &[u8]) -> [u64; 13] {
        if form.bytes == NEW.bytes {
            return (self.read16)(bytes);
        }
        let [refusal, kind, time, root, unit, premium, contracts, reset, level] = (self.read)(bytes);
        [refusal, kind, time, root, unit, premium, contracts, reset, level, 0, 0, 0, 0]
    }

    /// Writes an event in a form.
    pub fn write(&self, form: &Form, event: Event, room: &mut [u8]) -> Row {
        let [kind, time, root, unit, premium, contracts, reset, level, ..] = event;
        match form.bytes == NEW.bytes {
            true => (self.write16)(event, room),
            false => (self.write)([kind, time, root, unit, premium, contracts, reset, level], room),
        }
    }

    /// Moves bytes of a form into a room as the other form has them.
    pub fn moved(&self, form: &Form, bytes: &[u8], room: &mut [u8]) -> Row {
        match form.bytes == NEW.bytes {
            true => (self.narrow)(bytes, room),
            false => (self.widen)(bytes, room),
        }
    }
}
