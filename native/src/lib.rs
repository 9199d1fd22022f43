//! The proved library in a native program, by the calls of the crate for Rust, and its comparison with the second program.

pub mod beside;
pub mod both;
pub mod calls;
pub mod counts;
pub mod damage;
pub mod evening;
pub mod hand;
pub mod lines;
pub mod measure;
pub mod pair;
pub mod profiles;
pub mod program;
pub mod rates;
pub mod records;
pub mod run;
pub mod running;
pub mod scripts;
pub mod shrink;
pub mod steps;
pub mod tally;

pub use library::{
    accounted_close, accounted_lockout, accounted_offer, accounted_order, accounted_report, accounted_send, arm, clear, close, lockout,
    narrow, offer, order, profile, read_record, read_record16, remaining, report, send, status, text, widen, write_record, write_record16,
    Row, SIZE,
};

/// The proved library.
#[cfg(feature = "library")]
mod library {
    pub use mbrumzheg::raw::{
        accounted_close, accounted_lockout, accounted_offer, accounted_order, accounted_report, accounted_send, arm, clear, close, lockout,
        narrow, offer, order, profile, read_record16, remaining, report, send, status, text, widen, write_record, write_record16, Row,
        SIZE,
    };

    /// An event record read: the refusal, then kind, time, root, unit, premium, contracts, reset and level.
    #[inline]
    pub fn read_record(bytes: &[u8]) -> [u64; 9] {
        let (refusal, [kind, time, root, unit, premium, contracts, reset, level]) = mbrumzheg::raw::read_record(bytes);
        [refusal, kind, time, root, unit, premium, contracts, reset, level]
    }
}

/// The hand-written calls in its place, so that they can be compared with the second program before the library has a request.
#[cfg(not(feature = "library"))]
mod library {
    pub use crate::hand::{
        accounted_close, accounted_lockout, accounted_offer, accounted_order, accounted_report, accounted_send, arm, clear, close, lockout,
        offer, order, profile, read_record, read_record16, remaining, report, send, status, text,
    };
    pub use second::lent::Row;
    pub use second::place::NUMBERS as SIZE;

    /// An event written as a record: the refusal.
    pub fn write_record(event: [u64; 8], room: &mut [u8]) -> Row {
        [crate::hand::write_record(event, room), 0, 0, 0, 0]
    }

    /// An event written as a record of 16 bytes: the refusal.
    pub fn write_record16(event: [u64; 10], room: &mut [u8]) -> Row {
        [crate::hand::write_record16(event, room), 0, 0, 0, 0]
    }

    /// A record of 12 bytes moved into a room as one of 16: the refusal.
    pub fn widen(bytes: &[u8], room: &mut [u8]) -> Row {
        [crate::hand::widen(bytes, room), 0, 0, 0, 0]
    }

    /// A record of 16 bytes moved into a room as one of 12: the refusal.
    pub fn narrow(bytes: &[u8], room: &mut [u8]) -> Row {
        [crate::hand::narrow(bytes, room), 0, 0, 0, 0]
    }
}
