//! The day's account: eight figures for each root and for the firm, counted as the events are answered.

use crate::event::Event;
use crate::unit::{EventAnswer, Unit, OPEN};

/// The figures of a row.
pub const FIGURES: usize = 8;
/// The row of the firm, after those of the roots.
pub const FIRM_ROW: usize = 64;
/// How many numbers the account takes.
pub const NUMBERS: usize = FIGURES * (FIRM_ROW + 1);
/// The most that a figure may be.
pub const MOST_FIGURE: u64 = 1_000_000_000_000_000_000;
/// The refusal of an event whose figure would pass the most.
const PASSES: u64 = 21;

/// Orders at verdict 0.
pub const ACCEPTED: usize = 0;
/// Orders at another verdict.
pub const REJECTED: usize = 1;
/// Grants above 0.
pub const FILLS: usize = 2;
/// The contracts of the fills.
pub const CONTRACTS: usize = 3;
/// The notional of the fills, in ten-thousandths.
pub const NOTIONAL: usize = 4;
/// Offers at verdict 0 granted less than offered.
pub const CUTS: usize = 5;
/// Trips of the row's own level.
pub const TRIPS: usize = 6;
/// Reports from away markets.
pub const AWAY: usize = 7;

/// The eight figures of a root or the firm.
pub type Figures = [u64; FIGURES];

/// The account of a day.
#[derive(Clone, Debug, PartialEq, Eq)]
pub struct Account {
    /// The rows of roots 0 to 63, then the firm's.
    pub rows: [Figures; FIRM_ROW + 1],
}

impl Default for Account {
    /// The account that a day begins with.
    fn default() -> Account {
        Account { rows: [Figures::default(); FIRM_ROW + 1] }
    }
}

impl Account {
    /// The account of 520 numbers, row after row, if no figure is above the most.
    pub fn read(numbers: &[u64]) -> Option<Account> {
        let mut account = Account::default();
        account.rows.as_flattened_mut().copy_from_slice(&numbers[..NUMBERS]);
        account.is_within().then_some(account)
    }

    /// Writes the account to 520 numbers.
    pub fn write(&self, numbers: &mut [u64]) {
        numbers[..NUMBERS].copy_from_slice(self.rows.as_flattened());
    }

    /// Runs an event on a unit and counts it; neither changes if it is refused.
    pub fn run(&mut self, on: &mut Unit, event: Event) -> EventAnswer {
        let root = root_of(on, event);
        let mut after = on.clone();
        let answer = event.run(&mut after);
        if answer.refusal != 0 {
            return answer;
        }
        let mut counted = self.clone();
        if let Some(root) = root {
            counted.count(root as usize, event, &answer);
        }
        if !counted.is_within() {
            return EventAnswer::refused(PASSES);
        }
        (*on, *self) = (after, counted);
        answer
    }

    /// Adds what an answered event of a root brings to the root's row and to the firm's.
    fn count(&mut self, root: usize, event: Event, answer: &EventAnswer) {
        let brought = brought(event, answer);
        for (row, trip) in [(root, answer.root_trip), (FIRM_ROW, answer.firm_trip)] {
            for (figure, more) in self.rows[row].iter_mut().zip(brought) {
                *figure += more;
            }
            self.rows[row][TRIPS] += trip;
        }
    }

    /// Is no figure above the most?
    fn is_within(&self) -> bool {
        self.rows.as_flattened().iter().all(|figure| *figure <= MOST_FIGURE)
    }
}

/// The root that an event is about: a report's is that of its order. A lockout and a closing are about none in an account.
fn root_of(on: &Unit, event: Event) -> Option<u64> {
    match event {
        Event::Order { root, .. } | Event::Offer { root, .. } => Some(root),
        Event::Send { order, .. } => Some(order.root),
        Event::Report { identity, .. } => on.armed.as_ref()?.away.iter().find(|order| order.identity == identity).map(|order| order.root),
        Event::Lockout { .. } | Event::Close { .. } => None,
    }
}

/// What an answered event brings to a row, its trips apart.
fn brought(event: Event, answer: &EventAnswer) -> Figures {
    let mut figures = Figures::default();
    let is_open = answer.verdict == OPEN;
    match event {
        Event::Order { .. } | Event::Send { .. } => figures[if is_open { ACCEPTED } else { REJECTED }] = 1,
        Event::Offer { premium, contracts, .. } if is_open => {
            figures[FILLS] = u64::from(answer.grant > 0);
            figures[CONTRACTS] = answer.grant;
            figures[NOTIONAL] = premium * answer.grant;
            figures[CUTS] = u64::from(answer.grant < contracts);
        }
        Event::Report { .. } => figures[AWAY] = 1,
        Event::Offer { .. } | Event::Lockout { .. } | Event::Close { .. } => {}
    }
    figures
}
