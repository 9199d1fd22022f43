//! Orders sent to away markets: what is sent, what is reported back, and what is closed.

use crate::event::Answer;
use crate::memory::Memory;
use crate::raw;
use crate::refusal::Refusal;
use crate::time::Time;
use crate::unit::{judged, Armed, Unit};
use crate::values::{in_range, Contracts, Premium, Root, UnitOfRoot, Verdict};

/// The identity of an order sent away, 0 to 65,535.
#[derive(Clone, Copy, Debug, PartialEq, Eq, Hash, PartialOrd, Ord)]
pub struct Identity(u16);

impl Identity {
    /// An identity by its number; [`Refusal::Unknown`] above 65,535. Whether an order of that identity is open, the call tells.
    pub fn new(number: u64) -> Result<Identity, Refusal> {
        in_range(number, 0, 65_535, Refusal::Unknown).map(|n| Identity(n as u16))
    }

    /// Its number.
    pub const fn number(self) -> u64 {
        self.0 as u64
    }
}

/// How many reports an order sent away may have, 1 to 16.
#[derive(Clone, Copy, Debug, PartialEq, Eq, Hash, PartialOrd, Ord)]
pub struct Reports(u8);

impl Reports {
    /// So many reports; [`Refusal::BadAmount`] outside the range.
    pub fn new(n: u64) -> Result<Reports, Refusal> {
        in_range(n, 1, 16, Refusal::BadAmount).map(|n| Reports(n as u8))
    }

    /// How many.
    pub const fn count(self) -> u64 {
        self.0 as u64
    }
}

/// An order that is sent to an away market.
#[derive(Clone, Copy, Debug, PartialEq, Eq, Hash)]
pub struct Sending {
    /// When.
    pub time: Time,
    /// On which root.
    pub root: Root,
    /// On which unit of the root.
    pub unit: UnitOfRoot,
    /// At which premium its fills are counted.
    pub premium: Premium,
    /// How many contracts it is for.
    pub contracts: Contracts,
    /// By which identity it is reported and closed.
    pub identity: Identity,
    /// How many reports it may have.
    pub reports: Reports,
}

/// A fill that an away market reports.
#[derive(Clone, Copy, Debug, PartialEq, Eq, Hash)]
pub struct Report {
    /// When.
    pub time: Time,
    /// Of which order.
    pub identity: Identity,
    /// How many contracts were filled.
    pub contracts: Contracts,
}

/// The closing of an order sent away.
#[derive(Clone, Copy, Debug, PartialEq, Eq, Hash)]
pub struct Closing {
    /// When.
    pub time: Time,
    /// Of which order.
    pub identity: Identity,
}

impl<M: Memory> Unit<M, Armed> {
    /// Sends an order away. It gets the verdict of an order without a reset; at [`Verdict::Free`] alone the register, which holds 64, takes it up, and with a
    /// rate rule in the profile a place of the log is kept for each report that may come.
    ///
    /// ```
    /// use mbrumzheg::{Closing, Report, Sending, Time, Unit, UnitOfRoot, Verdict};
    /// # use mbrumzheg::{Contracts, Identity, Premium, Reports, Root};
    /// let mut unit = Unit::new().arm("ABCD,abs_vol,XYZ,100").map_err(|refused| refused.why)?;
    /// let (time, identity) = (Time::START, Identity::new(7)?);
    /// let sending = Sending {
    ///     time,
    ///     root: Root::new(0)?,
    ///     unit: UnitOfRoot::CallsFront,
    ///     premium: Premium::from_ten_thousandths(70_000)?,
    ///     contracts: Contracts::new(250)?,
    ///     identity,
    ///     reports: Reports::new(3)?,
    /// };
    /// assert_eq!(unit.send(sending)?, Verdict::Free);
    ///
    /// // what comes back is counted in full, past the limit too
    /// let first = unit.report(Report { time, identity, contracts: Contracts::new(90)? })?;
    /// let second = unit.report(Report { time, identity, contracts: Contracts::new(160)? })?;
    /// assert_eq!((first.grant, first.root_trip, second.grant, second.root_trip), (90, false, 160, true));
    /// assert_eq!(unit.close(Closing { time, identity })?, Verdict::Free);
    /// # Ok::<(), Box<dyn std::error::Error>>(())
    /// ```
    pub fn send(&mut self, sending: Sending) -> Result<Verdict, Refusal> {
        let Sending { time, root, unit, premium, contracts, identity, reports } = sending;
        let (premium, contracts) = (premium.ten_thousandths(), contracts.count());
        let memory = self.memory_mut();
        let row = raw::send(memory, time.ms(), root.number(), unit.number(), premium, contracts, identity.number(), reports.count());
        judged(row).map(|answer| answer.verdict)
    }

    /// A fill of an order sent away. It is counted as it was filled, at the premium of its sending, whether anything is locked or not, and uses one of the
    /// order's reports. The grant is its contracts. A rule trips if an absolute one is then at its limit or above, or a rate rule above; this is
    /// answered also where the level had tripped before.
    pub fn report(&mut self, report: Report) -> Result<Answer, Refusal> {
        let Report { time, identity, contracts } = report;
        judged(raw::report(self.memory_mut(), time.ms(), identity.number(), contracts.count()))
    }

    /// Closes an order sent away: its identity is free again, and so are the places that were kept for reports that did not come. It answers
    /// [`Verdict::Free`].
    pub fn close(&mut self, closing: Closing) -> Result<Verdict, Refusal> {
        judged(raw::close(self.memory_mut(), closing.time.ms(), closing.identity.number())).map(|answer| answer.verdict)
    }
}
