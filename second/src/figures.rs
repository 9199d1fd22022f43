//! The figures of a day from the list of its events and answers alone, each figure for itself: what an account must hold.

use crate::account::{ACCEPTED, AWAY, CONTRACTS, CUTS, FIGURES, FILLS, FIRM_ROW, NOTIONAL, NUMBERS, REJECTED, TRIPS};
use crate::event::Event;
use crate::unit::{Away, EventAnswer};

/// A day: its events with their answers, and the register that the account began beside.
#[derive(Clone, Copy, Debug)]
pub struct Day<'a> {
    pub began: &'a [Away],
    pub list: &'a [(Event, EventAnswer)],
}

impl Day<'_> {
    /// All 520 figures of an account begun at zeros.
    pub fn figures(&self) -> Vec<u64> {
        (0..NUMBERS).map(|place| self.figure(place / FIGURES, place % FIGURES)).collect()
    }

    /// One figure of one row.
    pub fn figure(&self, row: usize, figure: usize) -> u64 {
        let places = (0..self.list.len()).filter(|place| self.list[*place].1.refusal == 0);
        let of_row = places.filter(|place| self.is_of_row(*place, row));
        of_row.map(|place| added(figure, row == FIRM_ROW, &self.list[place])).sum()
    }

    /// Is the event at this place of the list one of the row? The firm's row has all.
    fn is_of_row(&self, place: usize, row: usize) -> bool {
        row == FIRM_ROW || self.root(place) == Some(row as u64)
    }

    /// The root of the event at this place, if it has one; a report's is that of its order.
    fn root(&self, place: usize) -> Option<u64> {
        match self.list[place].0 {
            Event::Order { root, .. } | Event::Offer { root, .. } | Event::Lockout { level: 0, root, .. } => Some(root),
            Event::Send { order, .. } => Some(order.root),
            Event::Report { identity, .. } | Event::Close { identity, .. } => self.sent(place, identity).map(|order| order.root),
            Event::Lockout { .. } => None,
        }
    }

    /// The order of an identity: the last that was sent before this place, or that of the register the account began beside.
    fn sent(&self, place: usize, identity: u64) -> Option<Away> {
        let sent = |(event, answer): &(Event, EventAnswer)| match event {
            Event::Send { order, .. } if answer.refusal == 0 && answer.verdict == 0 && order.identity == identity => Some(*order),
            _ => None,
        };
        let in_list = self.list[..place].iter().rev().find_map(sent);
        in_list.or_else(|| self.began.iter().find(|order| order.identity == identity).copied())
    }
}

/// What an event that was not refused adds to a figure of a row that it belongs to.
fn added(figure: usize, is_firm: bool, (event, answer): &(Event, EventAnswer)) -> u64 {
    match figure {
        ACCEPTED => u64::from(is_order(event) && answer.verdict == 0),
        REJECTED => u64::from(is_order(event) && answer.verdict != 0),
        FILLS => u64::from(filled(event, answer) > 0),
        CONTRACTS => filled(event, answer),
        NOTIONAL => filled(event, answer) * premium(event),
        CUTS => u64::from(answer.verdict == 0 && filled(event, answer) < offered(event)),
        TRIPS if is_firm => answer.firm_trip,
        TRIPS => answer.root_trip,
        AWAY => u64::from(matches!(event, Event::Report { .. })),
        _ => 0,
    }
}

/// Does the event count as an order? A sending does.
fn is_order(event: &Event) -> bool {
    matches!(event, Event::Order { .. } | Event::Send { .. })
}

/// The contracts that an offer was granted, 0 for any other event.
fn filled(event: &Event, answer: &EventAnswer) -> u64 {
    if offered(event) > 0 {
        answer.grant
    } else {
        0
    }
}

/// The contracts that an offer offers, 0 for any other event.
fn offered(event: &Event) -> u64 {
    match event {
        Event::Offer { contracts, .. } => *contracts,
        _ => 0,
    }
}

/// The premium of an offer, 0 for any other event.
fn premium(event: &Event) -> u64 {
    match event {
        Event::Offer { premium, .. } => *premium,
        _ => 0,
    }
}
