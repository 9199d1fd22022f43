//! The log: every event of the day as it was typed, its answer in words, and the answer's numbers.

use crate::answers::answer;
use crate::session::passed::Passed;
use crate::session::sitting::Sitting;
use crate::typed::spoken::typed;
use crate::words::json;
use mbrumzheg::Event;

/// A line of the log.
#[derive(Clone, Debug, PartialEq, Eq)]
pub struct Entry {
    /// The place, from 1.
    pub place: usize,
    /// The event in the words that would type it.
    pub asked: String,
    /// The answer in words.
    pub words: String,
    /// Place, refusal, verdict, grant, root trip, firm trip.
    pub numbers: String,
    /// What sort of answer it is.
    pub tone: &'static str,
}

impl Entry {
    /// From what was just passed; an answer to something typed says what to type after a refusal.
    pub fn of(sitting: &Sitting, passed: &Passed) -> Entry {
        let asked = passed.event.map_or_else(|| "faulty record".to_string(), |event| typed(&sitting.profile, &event));
        let whole = answer::answer(sitting, passed);
        let numbers = passed.numbers();
        let words = whole.strip_suffix(&format!("  [{numbers}]")).unwrap_or(&whole).to_string();
        Entry { place: passed.place, asked, words, numbers, tone: tone(passed) }
    }

    /// As JSON.
    pub fn json(&self) -> String {
        json::object(&[
            ("place", self.place.to_string()),
            ("asked", json::text(&self.asked)),
            ("words", json::text(&self.words)),
            ("numbers", json::list(self.numbers.split(' ').map(str::to_string))),
            ("tone", json::text(self.tone)),
        ])
    }
}

fn tone(passed: &Passed) -> &'static str {
    match (&passed.event, &passed.answer) {
        (_, Err(_)) => "refused",
        (_, Ok(answer)) if !answer.verdict.passes() => "rejected",
        (_, Ok(answer)) if answer.root_trip || answer.firm_trip => "tripped",
        (Some(Event::Offer(_)), Ok(_)) => "granted",
        (Some(Event::Send(_) | Event::Report(_) | Event::Close(_)), Ok(_)) => "away",
        (Some(Event::Order { reset, .. }), Ok(_)) if reset.number() > 0 => "reset",
        (Some(Event::Order { .. }), Ok(_)) => "passed",
        (Some(Event::Lockout { .. }), Ok(_)) => "locked",
        (None, Ok(_)) => "passed",
    }
}
