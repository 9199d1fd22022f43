//! What happens to a unit, and what it answers.

use crate::away::{Closing, Report, Sending};
use crate::time::Time;
use crate::values::{Contracts, Level, Premium, Reset, Root, UnitOfRoot, Verdict};

/// An offered fill.
#[derive(Clone, Copy, Debug, PartialEq, Eq, Hash)]
pub struct Offer {
    /// When.
    pub time: Time,
    /// On which root.
    pub root: Root,
    /// On which unit of the root.
    pub unit: UnitOfRoot,
    /// At which premium.
    pub premium: Premium,
    /// How many contracts are offered.
    pub contracts: Contracts,
}

/// An event of the day.
#[derive(Clone, Copy, Debug, PartialEq, Eq, Hash)]
pub enum Event {
    /// An order, with the reset that it asks for.
    Order {
        /// When.
        time: Time,
        /// On which root.
        root: Root,
        /// What it resets first.
        reset: Reset,
    },
    /// An offered fill.
    Offer(Offer),
    /// A lockout by the user.
    Lockout {
        /// When.
        time: Time,
        /// What is locked.
        level: Level,
    },
    /// An order sent to an away market.
    Send(Sending),
    /// A fill that an away market reports.
    Report(Report),
    /// The closing of an order sent away.
    Close(Closing),
}

impl Event {
    /// When it happens.
    pub const fn time(&self) -> Time {
        match self {
            Event::Order { time, .. } | Event::Lockout { time, .. } => *time,
            Event::Offer(offer) => offer.time,
            Event::Send(sending) => sending.time,
            Event::Report(report) => report.time,
            Event::Close(closing) => closing.time,
        }
    }

    /// Its root, if it names one; a report and a closing name their order alone.
    pub const fn root(&self) -> Option<Root> {
        match self {
            Event::Order { root, .. } => Some(*root),
            Event::Offer(offer) => Some(offer.root),
            Event::Send(sending) => Some(sending.root),
            Event::Lockout { level: Level::Root(root), .. } => Some(*root),
            Event::Lockout { level: Level::Firm, .. } | Event::Report(_) | Event::Close(_) => None,
        }
    }
}

/// What an event that was not refused is answered. The grant is above 0, and something trips, for offers and reports alone.
#[derive(Clone, Copy, Debug, PartialEq, Eq, Hash)]
#[must_use = "the grant is what may be filled"]
pub struct Answer {
    /// Whether it may pass, or what is locked.
    pub verdict: Verdict,
    /// How many contracts of an offer are granted; all that a report has.
    pub grant: u64,
    /// Whether this offer or report tripped its root.
    pub root_trip: bool,
    /// Whether this offer or report tripped the firm.
    pub firm_trip: bool,
}

impl Answer {
    /// The answer of an event that has a verdict alone.
    pub const fn of_verdict(verdict: Verdict) -> Answer {
        Answer { verdict, grant: 0, root_trip: false, firm_trip: false }
    }

    /// Whether an offer of so many contracts was cut: it passed, and less was granted.
    pub fn cuts(&self, offered: Contracts) -> bool {
        self.verdict.passes() && self.grant < offered.count()
    }
}
