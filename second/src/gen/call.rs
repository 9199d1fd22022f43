//! A call with its numbers.

use super::profiles::{profile, valid_profile};
use crate::event::Event;
use crate::records::{Record, LOCKOUT, OFFER, ORDER};
use crate::unit::{Away, Unit};

/// One call and its numbers.
#[derive(Clone, Copy, Debug, PartialEq, Eq)]
pub enum Call {
    /// Arm from the text that `gen::profile` gives for the seed.
    Arm {
        seed: u64,
    },
    /// Arm from the text that `gen::valid_profile` gives for the seed.
    ArmValid {
        seed: u64,
    },
    Clear,
    Order {
        time: u64,
        root: u64,
        reset: u64,
    },
    Lockout {
        time: u64,
        level: u64,
        root: u64,
    },
    Offer {
        time: u64,
        root: u64,
        unit: u64,
        premium: u64,
        contracts: u64,
    },
    Send {
        time: u64,
        order: Away,
    },
    Report {
        time: u64,
        identity: u64,
        contracts: u64,
    },
    Close {
        time: u64,
        identity: u64,
    },
    Remaining {
        time: u64,
        rule: u64,
        unit: u64,
    },
    Status,
    /// Text with so many bytes of room.
    Text {
        verdict: u64,
        room: u64,
    },
    /// Profile with so many bytes of room.
    Profile {
        room: u64,
    },
}

impl Call {
    /// Runs the call on the second unit and gives its row of numbers.
    pub fn run(&self, on: &mut Unit) -> Vec<u64> {
        match *self {
            Call::Arm { seed } => on.arm(&profile(seed)).numbers().to_vec(),
            Call::ArmValid { seed } => on.arm(&valid_profile(seed)).numbers().to_vec(),
            Call::Clear => on.clear().numbers().to_vec(),
            Call::Remaining { time, rule, unit } => on.remaining(time, rule, unit).numbers().to_vec(),
            Call::Status => on.status().numbers().to_vec(),
            Call::Text { verdict, room } => on.text(verdict, &mut vec![0; room as usize]).numbers().to_vec(),
            Call::Profile { room } => on.profile(&mut vec![0; room as usize]).numbers().to_vec(),
            _ => self.event().map_or(Vec::new(), |event| event.run(on).numbers().to_vec()),
        }
    }

    /// The event that the call is, if it changes a state and has a time.
    pub fn event(&self) -> Option<Event> {
        match *self {
            Call::Order { time, root, reset } => Some(Event::Order { time, root, reset }),
            Call::Lockout { time, level, root } => Some(Event::Lockout { time, level, root }),
            Call::Offer { time, root, unit, premium, contracts } => Some(Event::Offer { time, root, unit, premium, contracts }),
            Call::Send { time, order } => Some(Event::Send { time, order }),
            Call::Report { time, identity, contracts } => Some(Event::Report { time, identity, contracts }),
            Call::Close { time, identity } => Some(Event::Close { time, identity }),
            _ => None,
        }
    }

    /// The time to which the call sets the clock.
    pub fn clock_time(&self) -> Option<u64> {
        self.event().map(|event| event.time())
    }

    /// The record of 12 bytes of an order, offer or lockout; its numbers may be too wide for the writer.
    pub fn record(&self) -> Option<Record> {
        let none = Record::default();
        match *self {
            Call::Order { time, root, reset } => Some(Record { kind: ORDER, time, root, reset, ..none }),
            Call::Lockout { time, level, root } => Some(Record { kind: LOCKOUT, time, level, root, ..none }),
            Call::Offer { time, root, unit, premium, contracts } => {
                Some(Record { kind: OFFER, time, root, unit, premium, contracts, ..none })
            }
            _ => None,
        }
    }
}

impl From<Event> for Call {
    /// The call that an event is.
    fn from(event: Event) -> Call {
        match event {
            Event::Order { time, root, reset } => Call::Order { time, root, reset },
            Event::Lockout { time, level, root } => Call::Lockout { time, level, root },
            Event::Offer { time, root, unit, premium, contracts } => Call::Offer { time, root, unit, premium, contracts },
            Event::Send { time, order } => Call::Send { time, order },
            Event::Report { time, identity, contracts } => Call::Report { time, identity, contracts },
            Event::Close { time, identity } => Call::Close { time, identity },
        }
    }
}
