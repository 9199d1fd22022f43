//! The calls of a unit that keep an account.

use crate::account::Account;
use crate::away::{Closing, Report, Sending};
use crate::event::{Answer, Event, Offer};
use crate::memory::Memory;
use crate::raw;
use crate::refusal::Refusal;
use crate::time::Time;
use crate::unit::{judged, Armed, Unit};
use crate::values::{Level, Reset, Root, Verdict};

impl<M: Memory> Unit<M, Armed> {
    /// [`order`](Unit::order), counted in an account.
    pub fn accounted_order(&mut self, account: &mut Account, time: Time, root: Root, reset: Reset) -> Result<Verdict, Refusal> {
        let row = raw::accounted_order(self.memory_mut(), account.numbers_mut(), time.ms(), root.number(), reset.number());
        judged(row).map(|answer| answer.verdict)
    }

    /// [`lockout`](Unit::lockout), which an account does not count.
    pub fn accounted_lockout(&mut self, account: &mut Account, time: Time, level: Level) -> Result<Verdict, Refusal> {
        let row = raw::accounted_lockout(self.memory_mut(), account.numbers_mut(), time.ms(), level.number(), level.root_number());
        judged(row).map(|answer| answer.verdict)
    }

    /// [`offer`](Unit::offer), counted in an account.
    pub fn accounted_offer(&mut self, account: &mut Account, offer: Offer) -> Result<Answer, Refusal> {
        let Offer { time, root, unit, premium, contracts } = offer;
        let (premium, contracts) = (premium.ten_thousandths(), contracts.count());
        let (memory, account) = (self.memory_mut(), account.numbers_mut());
        judged(raw::accounted_offer(memory, account, time.ms(), root.number(), unit.number(), premium, contracts))
    }

    /// [`send`](Unit::send), counted in an account as an order.
    pub fn accounted_send(&mut self, account: &mut Account, sending: Sending) -> Result<Verdict, Refusal> {
        let Sending { time, root, unit, premium, contracts, identity, reports } = sending;
        let (root, unit, premium, contracts) = (root.number(), unit.number(), premium.ten_thousandths(), contracts.count());
        let (memory, account) = (self.memory_mut(), account.numbers_mut());
        let row = raw::accounted_send(memory, account, time.ms(), root, unit, premium, contracts, identity.number(), reports.count());
        judged(row).map(|answer| answer.verdict)
    }

    /// [`report`](Unit::report), counted in an account in a column of its own and as trips.
    pub fn accounted_report(&mut self, account: &mut Account, report: Report) -> Result<Answer, Refusal> {
        let Report { time, identity, contracts } = report;
        judged(raw::accounted_report(self.memory_mut(), account.numbers_mut(), time.ms(), identity.number(), contracts.count()))
    }

    /// [`close`](Unit::close), which an account does not count.
    pub fn accounted_close(&mut self, account: &mut Account, closing: Closing) -> Result<Verdict, Refusal> {
        let row = raw::accounted_close(self.memory_mut(), account.numbers_mut(), closing.time.ms(), closing.identity.number());
        judged(row).map(|answer| answer.verdict)
    }

    /// Any event, counted in an account.
    pub fn accounted_answer(&mut self, account: &mut Account, event: Event) -> Result<Answer, Refusal> {
        match event {
            Event::Order { time, root, reset } => self.accounted_order(account, time, root, reset).map(Answer::of_verdict),
            Event::Offer(offer) => self.accounted_offer(account, offer),
            Event::Lockout { time, level } => self.accounted_lockout(account, time, level).map(Answer::of_verdict),
            Event::Send(sending) => self.accounted_send(account, sending).map(Answer::of_verdict),
            Event::Report(report) => self.accounted_report(account, report),
            Event::Close(closing) => self.accounted_close(account, closing).map(Answer::of_verdict),
        }
    }
}
