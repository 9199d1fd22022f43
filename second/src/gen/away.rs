//! Sendings, reports and closings that a maker draws beside the register of its unit.

use super::call::Call;
use super::maker::Maker;
use crate::unit::{Away, LAST_IDENTITY, MOST_REPORTS, REGISTER_PLACES};
use crate::MOST_CONTRACTS;

impl Maker {
    /// A sending, a report or a closing, at times with one number out of its range.
    pub(super) fn away(&mut self) -> Call {
        let orders = self.state().map_or(0, |armed| armed.away.len());
        let call = match self.random.below(12) {
            _ if orders == 0 && !self.random.once_in(5) => self.send(),
            0..=5 if orders < REGISTER_PLACES || self.random.once_in(4) => self.send(),
            0..=10 => self.report(),
            _ => self.close(),
        };
        if self.random.once_in(40) {
            self.odd(call)
        } else {
            call
        }
    }

    /// A sending, most times with an identity that is not open; it keeps many places where the day is to fill the log.
    fn send(&mut self) -> Call {
        let (time, root, unit) = (self.time(), self.root(), self.random.below(4));
        let (premium, contracts) = self.amounts(time, root, unit);
        let any = self.random.between(1, MOST_REPORTS);
        let few = self.random.pick(&[1, 1, 2, 3, 5, any]);
        let reports = if self.forgets { few } else { self.random.pick(&[few, any, MOST_REPORTS]) };
        let known = self.random.below(2 * REGISTER_PLACES as u64);
        let identity = self.random.pick(&[known, known, known, LAST_IDENTITY - known]);
        Call::Send { time, order: Away { identity, root, unit, premium, contracts, reports } }
    }

    /// A report of about as many contracts as are open, or a part of them.
    fn report(&mut self) -> Call {
        let used_up = self.random.once_in(10);
        let (time, order) = (self.time(), self.sent(used_up));
        let open = order.map_or(1, |order| order.contracts);
        let part = self.random.between(1, open.max(1));
        let contracts = self.random.pick(&[1, part, part, part, open, open + 1]).clamp(1, MOST_CONTRACTS);
        Call::Report { time, identity: self.identity(order), contracts }
    }

    /// A closing, half the time of an order that is used up.
    fn close(&mut self) -> Call {
        let used_up = self.random.once_in(2);
        let (time, order) = (self.time(), self.sent(used_up));
        Call::Close { time, identity: self.identity(order) }
    }

    /// Some order of the register, one that is used up or one that is not if there is such a one.
    fn sent(&mut self, used_up: bool) -> Option<Away> {
        let is_used_up = |order: &Away| order.contracts == 0 || order.reports == 0;
        let (used, live): (Vec<Away>, Vec<Away>) = self.state()?.away.iter().copied().partition(is_used_up);
        let orders = if live.is_empty() || used_up && !used.is_empty() { used } else { live };
        (!orders.is_empty()).then(|| self.random.pick(&orders))
    }

    /// The identity of the order, now and then or without an order any other.
    fn identity(&mut self, order: Option<Away>) -> u64 {
        let any = self.random.below(2 * REGISTER_PLACES as u64);
        if self.random.once_in(20) {
            return any;
        }
        order.map_or(any, |order| order.identity)
    }
}
