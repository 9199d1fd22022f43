//! Event records: one event, its fields from the most significant bit on, those that its kind does not use 0. A record has 16 bytes and its time in
//! microseconds; one of the old form has 12, its time in milliseconds, and no place for orders sent away. The library reads, writes and moves them; this
//! file gives their numbers their types.
//!
//! ```
//! use mbrumzheg::{narrow, widen, Contracts, Event, Offer, Premium, Refusal, Root, Time, UnitOfRoot};
//! let offer_at = |time| -> Result<Event, Refusal> {
//!     let (root, unit, premium) = (Root::new(0)?, UnitOfRoot::CallsFront, Premium::from_ten_thousandths(70_000)?);
//!     Ok(Event::Offer(Offer { time, root, unit, premium, contracts: Contracts::new(200)? }))
//! };
//! let event = offer_at(Time::from_us(10_250)?)?;
//! let record = event.to_record16()?;
//! assert_eq!(record, [0x10, 0, 0, 0x14, 0x05, 0, 0, 0x11, 0x17, 0, 0, 0xC8, 0, 0, 0, 0]);
//! assert_eq!(Event::from_record16(&record), Ok(event));
//! assert_eq!(narrow(&record), Err(Refusal::Unfit));
//!
//! let old = offer_at(Time::from_ms(10)?)?.to_record()?;
//! assert_eq!(old, [0x40, 0, 0, 0x50, 0, 0x01, 0x11, 0x70, 0, 0x0C, 0x80, 0]);
//! assert_eq!(widen(&old), offer_at(Time::from_ms(10)?)?.to_record16());
//! assert_eq!(narrow(&widen(&old)?), Ok(old));
//! # Ok::<(), Refusal>(())
//! ```

use crate::away::{Closing, Identity, Report, Reports, Sending};
use crate::event::{Event, Offer};
use crate::raw::{self, Event16Numbers};
use crate::refusal::Refusal;
use crate::time::Time;
use crate::unit::accepted;
use crate::values::{Contracts, Level, Premium, Reset, Root, UnitOfRoot};

/// How many bytes a record has.
pub const RECORD16_SIZE: usize = 16;

/// How many bytes a record of the old form has.
pub const RECORD_SIZE: usize = 12;

/// An event's numbers as the library takes them: kind, time in microseconds, root, unit, premium, contracts, reset, level, identity, reports.
fn numbers(event: &Event) -> Event16Numbers {
    match *event {
        Event::Order { time, root, reset } => [0, time.us(), root.number(), 0, 0, 0, reset.number(), 0, 0, 0],
        Event::Offer(Offer { time, root, unit, premium, contracts }) => {
            [1, time.us(), root.number(), unit.number(), premium.ten_thousandths(), contracts.count(), 0, 0, 0, 0]
        }
        Event::Lockout { time, level } => [2, time.us(), level.root_number(), 0, 0, 0, 0, level.number(), 0, 0],
        Event::Send(Sending { time, root, unit, premium, contracts, identity, reports }) => {
            let (premium, contracts) = (premium.ten_thousandths(), contracts.count());
            [3, time.us(), root.number(), unit.number(), premium, contracts, 0, 0, identity.number(), reports.count()]
        }
        Event::Report(Report { time, identity, contracts }) => [4, time.us(), 0, 0, 0, contracts.count(), 0, 0, identity.number(), 0],
        Event::Close(Closing { time, identity }) => [5, time.us(), 0, 0, 0, 0, 0, 0, identity.number(), 0],
    }
}

/// The event that numbers name, each taken through the constructor that checks its range.
fn event(numbers: Event16Numbers) -> Result<Event, Refusal> {
    let [kind, time, root, unit, premium, contracts, reset, level, identity, reports] = numbers;
    let (time, root) = (Time::from_us(time)?, Root::new(root)?);
    let offer = || -> Result<Offer, Refusal> {
        let (unit, premium) = (UnitOfRoot::from_number(unit)?, Premium::from_ten_thousandths(premium)?);
        Ok(Offer { time, root, unit, premium, contracts: Contracts::new(contracts)? })
    };
    let identity = || Identity::new(identity);
    match (kind, level) {
        (0, _) => Ok(Event::Order { time, root, reset: Reset::from_number(reset)? }),
        (1, _) => Ok(Event::Offer(offer()?)),
        (2, 0) => Ok(Event::Lockout { time, level: Level::Root(root) }),
        (2, 1) => Ok(Event::Lockout { time, level: Level::Firm }),
        (3, _) => {
            let Offer { unit, premium, contracts, .. } = offer()?;
            Ok(Event::Send(Sending { time, root, unit, premium, contracts, identity: identity()?, reports: Reports::new(reports)? }))
        }
        (4, _) => Ok(Event::Report(Report { time, identity: identity()?, contracts: Contracts::new(contracts)? })),
        (5, _) => Ok(Event::Close(Closing { time, identity: identity()? })),
        _ => Err(Refusal::FaultyRecord),
    }
}

impl Event {
    /// The event's record. Every event has one, so a refusal would be the library's fault.
    pub fn to_record16(&self) -> Result<[u8; RECORD16_SIZE], Refusal> {
        let mut room = [0; RECORD16_SIZE];
        accepted(raw::write_record16(numbers(self), &mut room)).map(|_| room)
    }

    /// The event of a record; [`Refusal::FaultyRecord`] for any bytes that no event has.
    pub fn from_record16(bytes: &[u8]) -> Result<Event, Refusal> {
        match raw::read_record16(bytes) {
            [0, numbers @ .., 0, 0] => event(numbers).map_err(|_| Refusal::FaultyRecord),
            _ => Err(Refusal::FaultyRecord),
        }
    }

    /// The event's record in the old form; [`Refusal::FaultyRecord`] for what 12 bytes have no place for: a time that is not in whole milliseconds, an order
    /// with a reset above [`Reset::Both`], and orders sent away, their reports and their closings.
    pub fn to_record(&self) -> Result<[u8; RECORD_SIZE], Refusal> {
        let [kind, time, numbers @ .., identity, reports] = numbers(self);
        if time % 1_000 != 0 || identity != 0 || reports != 0 {
            return Err(Refusal::FaultyRecord);
        }
        let [root, unit, premium, contracts, reset, level] = numbers;
        let mut room = [0; RECORD_SIZE];
        accepted(raw::write_record([kind, time / 1_000, root, unit, premium, contracts, reset, level], &mut room)).map(|_| room)
    }

    /// The event of a record of the old form; [`Refusal::FaultyRecord`] for any bytes that no event has.
    pub fn from_record(bytes: &[u8]) -> Result<Event, Refusal> {
        match raw::read_record(bytes) {
            (0, [kind, time, root, unit, premium, contracts, reset, level]) => {
                event([kind, time * 1_000, root, unit, premium, contracts, reset, level, 0, 0]).map_err(|_| Refusal::FaultyRecord)
            }
            _ => Err(Refusal::FaultyRecord),
        }
    }
}

/// A record of the old form as one with microseconds; [`Refusal::FaultyRecord`] for any bytes that no event has.
pub fn widen(bytes: &[u8]) -> Result<[u8; RECORD16_SIZE], Refusal> {
    let mut room = [0; RECORD16_SIZE];
    accepted(raw::widen(bytes, &mut room)).map(|_| room)
}

/// A record as one of the old form; [`Refusal::FaultyRecord`] for any bytes that no event has, [`Refusal::Unfit`] for an event that the old form has no
/// record for.
pub fn narrow(bytes: &[u8]) -> Result<[u8; RECORD_SIZE], Refusal> {
    let mut room = [0; RECORD_SIZE];
    accepted(raw::narrow(bytes, &mut room)).map(|_| room)
}
