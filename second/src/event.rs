//! The events of a day: the calls that change a state and have a time.

use crate::records16::{Record16, CLOSING, LOCKOUT, MILLISECOND, OFFER, ORDER, REPORT, SENDING};
use crate::unit::{Away, EventAnswer, Unit};

/// One event with its numbers; its time is in milliseconds.
#[derive(Clone, Copy, Debug, PartialEq, Eq)]
pub enum Event {
    Order { time: u64, root: u64, reset: u64 },
    Lockout { time: u64, level: u64, root: u64 },
    Offer { time: u64, root: u64, unit: u64, premium: u64, contracts: u64 },
    Send { time: u64, order: Away },
    Report { time: u64, identity: u64, contracts: u64 },
    Close { time: u64, identity: u64 },
}

impl Event {
    /// The event of a record that its reader took: in whole milliseconds, the remainder dropped.
    pub fn of(record: &Record16) -> Event {
        let Record16 { root, unit, premium, contracts, reset, level, identity, reports, .. } = *record;
        let time = record.time / MILLISECOND;
        match record.kind {
            ORDER => Event::Order { time, root, reset },
            OFFER => Event::Offer { time, root, unit, premium, contracts },
            LOCKOUT => Event::Lockout { time, level, root },
            SENDING => Event::Send { time, order: Away { identity, root, unit, premium, contracts, reports } },
            REPORT => Event::Report { time, identity, contracts },
            CLOSING => Event::Close { time, identity },
            kind => unreachable!("no reader takes kind {kind}"),
        }
    }

    /// The record of the event so many microseconds into its millisecond; its numbers may be too wide for the writer.
    pub fn record(&self, microseconds: u64) -> Record16 {
        let none = Record16::default();
        let stamped = |time: u64| time.wrapping_mul(MILLISECOND).wrapping_add(microseconds);
        match *self {
            Event::Order { time, root, reset } => Record16 { kind: ORDER, time: stamped(time), root, reset, ..none },
            Event::Lockout { time, level, root } => Record16 { kind: LOCKOUT, time: stamped(time), level, root, ..none },
            Event::Offer { time, root, unit, premium, contracts } => {
                Record16 { kind: OFFER, time: stamped(time), root, unit, premium, contracts, ..none }
            }
            Event::Send { time, order: Away { identity, root, unit, premium, contracts, reports } } => {
                Record16 { kind: SENDING, time: stamped(time), root, unit, premium, contracts, identity, reports, ..none }
            }
            Event::Report { time, identity, contracts } => Record16 { kind: REPORT, time: stamped(time), identity, contracts, ..none },
            Event::Close { time, identity } => Record16 { kind: CLOSING, time: stamped(time), identity, ..none },
        }
    }

    /// The time to which the event sets the clock.
    pub fn time(&self) -> u64 {
        match *self {
            Event::Order { time, .. } | Event::Lockout { time, .. } | Event::Offer { time, .. } => time,
            Event::Send { time, .. } | Event::Report { time, .. } | Event::Close { time, .. } => time,
        }
    }

    /// Runs the event on a unit.
    pub fn run(&self, on: &mut Unit) -> EventAnswer {
        match *self {
            Event::Order { time, root, reset } => on.order(time, root, reset),
            Event::Lockout { time, level, root } => on.lockout(time, level, root),
            Event::Offer { time, root, unit, premium, contracts } => on.offer(time, root, unit, premium, contracts),
            Event::Send { time, order } => on.send(time, order),
            Event::Report { time, identity, contracts } => on.report(time, identity, contracts),
            Event::Close { time, identity } => on.close(time, identity),
        }
    }
}
