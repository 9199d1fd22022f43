//! An event with its answer, and what stood behind it: the counts that cut it, that it brought to their limit or past it, the locks that it ended.

use crate::session::register::Away;
use crate::session::standing::Lock;
use mbrumzheg::{Answer, Contracts, Event, Refusal};

/// An event with its answer.
pub struct Passed {
    /// Its place, from 1.
    pub place: usize,
    /// The event; none for a record that holds none.
    pub event: Option<Event>,
    /// What the library answered.
    pub answer: Result<Answer, Refusal>,
    /// Places of the counts whose allowance was the grant of a cut offer.
    pub cut_by: Vec<usize>,
    /// Places of the absolute rules' counts whose total is now the limit.
    pub reached: Vec<usize>,
    /// Places of the counts that a report from away brought past the limit, and by how much they are past it.
    pub past: Vec<(usize, u64)>,
    /// Whether any rule covers the offer or the report.
    pub covered: bool,
    /// Locks that it ended.
    pub ended: Vec<Lock>,
    /// The order sent away that it was about, as it stands now or stood when it was closed.
    pub away: Option<Away>,
}

impl Passed {
    /// An event and its answer, with nothing said of what stood behind it.
    pub fn new(place: usize, event: Option<Event>, answer: Result<Answer, Refusal>) -> Passed {
        let (cut_by, reached, past, ended) = Default::default();
        Passed { place, event, answer, cut_by, reached, past, covered: false, ended, away: None }
    }

    /// The places of the counts that tripped.
    pub fn tripping(&self) -> impl Iterator<Item = usize> + '_ {
        let reached = self.reached.iter().filter(|count| !self.cut_by.contains(count));
        self.cut_by.iter().chain(reached).copied().chain(self.past.iter().map(|(count, _)| *count))
    }

    /// Whether a person who watches a replay should see it: anything but a plain pass.
    pub fn is_notable(&self) -> bool {
        match (&self.event, &self.answer) {
            (Some(Event::Offer(offer)), Ok(answer)) => {
                !answer.verdict.passes() || answer.cuts(offer.contracts) || answer.root_trip || answer.firm_trip
            }
            (Some(Event::Order { reset, .. }), Ok(answer)) => !answer.verdict.passes() || reset.number() > 0,
            (Some(Event::Send(_) | Event::Close(_)), Ok(answer)) => !answer.verdict.passes(),
            (Some(Event::Report(_)), Ok(answer)) => answer.root_trip || answer.firm_trip,
            _ => true,
        }
    }

    /// Whether it was an offer that passed and was cut.
    pub fn is_cut(&self) -> bool {
        let offered: Option<Contracts> = match self.event {
            Some(Event::Offer(offer)) => Some(offer.contracts),
            _ => None,
        };
        matches!((&self.answer, offered), (Ok(answer), Some(offered)) if answer.cuts(offered))
    }

    /// The program's line: place, refusal, verdict, grant, root trip, firm trip.
    pub fn numbers(&self) -> String {
        match &self.answer {
            Ok(a) => {
                let (root_trip, firm_trip) = (u8::from(a.root_trip), u8::from(a.firm_trip));
                format!("{} 0 {} {} {root_trip} {firm_trip}", self.place, a.verdict.number(), a.grant)
            }
            Err(refusal) => format!("{} {} 0 0 0 0", self.place, refusal.number()),
        }
    }
}
