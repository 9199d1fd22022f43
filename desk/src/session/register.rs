//! The orders sent away that are open, as the library's answers leave them.

use mbrumzheg::{Identity, Offer, Report, Sending};

/// An order that was sent away.
#[derive(Clone, Copy, Debug, PartialEq, Eq)]
pub struct Away {
    /// How it was sent.
    pub sent: Sending,
    /// How many contracts are open.
    pub open: u64,
    /// How many reports are still allowed.
    pub reports: u64,
}

impl Away {
    /// How many contracts have come back.
    pub fn back(&self) -> u64 {
        self.sent.contracts.count().saturating_sub(self.open)
    }

    /// A report of it as the fill that it is: of the order's root and unit, at its premium.
    pub fn fill(&self, report: &Report) -> Offer {
        let Sending { root, unit, premium, .. } = self.sent;
        Offer { time: report.time, root, unit, premium, contracts: report.contracts }
    }
}

/// The orders that are open, in the order of their sending.
#[derive(Default)]
pub struct Register {
    orders: Vec<Away>,
}

impl Register {
    /// All of them.
    pub fn orders(&self) -> &[Away] {
        &self.orders
    }

    /// The order of an identity.
    pub fn order(&self, identity: Identity) -> Option<&Away> {
        self.orders.iter().find(|order| order.sent.identity == identity)
    }

    /// How many reports they are all still allowed: so many places of the log are kept, if the profile has a rate rule.
    pub fn reports(&self) -> u64 {
        self.orders.iter().map(|order| order.reports).sum()
    }

    /// Takes an order that was sent.
    pub fn send(&mut self, sent: Sending) -> Away {
        let order = Away { sent, open: sent.contracts.count(), reports: sent.reports.count() };
        self.orders.push(order);
        order
    }

    /// Takes a report; answers the order as it leaves it.
    pub fn report(&mut self, report: &Report) -> Option<Away> {
        let order = self.orders.iter_mut().find(|order| order.sent.identity == report.identity)?;
        order.open = order.open.saturating_sub(report.contracts.count());
        order.reports = order.reports.saturating_sub(1);
        Some(*order)
    }

    /// Takes a closing; answers the order as it stood.
    pub fn close(&mut self, identity: Identity) -> Option<Away> {
        let place = self.orders.iter().position(|order| order.sent.identity == identity)?;
        Some(self.orders.remove(place))
    }
}
