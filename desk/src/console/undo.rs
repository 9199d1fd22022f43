//! Taking back the last line or replay that passed events: what stood before it is replayed on a fresh state.

use crate::library::state::State;
use crate::records::source::Source;
use crate::session::sitting::Sitting;
use crate::words::{self, counted};
use mbrumzheg::Time;

/// How a day stood before a line or a replay.
pub struct Step {
    place: usize,
    unsaved: usize,
    typed: usize,
    files: usize,
}

impl Step {
    /// How a day stands now.
    pub fn before(sitting: &Sitting) -> Step {
        let sources = &sitting.sources;
        Step { place: sitting.place, unsaved: sitting.unsaved, typed: sources.typed, files: sources.replayed.len() }
    }
}

/// What can be taken back of a day.
#[derive(Default)]
pub struct Steps {
    profile: Vec<u8>,
    taken: Vec<(Step, String)>,
}

impl Steps {
    /// Of a day that begins on a state just armed from this text.
    pub fn of(profile: &[u8]) -> Steps {
        Steps { profile: profile.to_vec(), taken: Vec::new() }
    }

    /// Notes a line or a replay by its words, if it passed an event.
    pub fn took(&mut self, before: Step, sitting: &Sitting, what: String) {
        if sitting.place > before.place {
            self.taken.push((before, what));
        }
    }

    /// Takes the last of them back.
    pub fn undo(&mut self, sitting: &mut Sitting) -> Result<String, String> {
        let Some((step, what)) = self.taken.last() else { return Err("nothing was passed yet that could be taken back".to_string()) };
        let fresh = self.as_before(sitting, step)?;
        let said = format!("taken back: {what}; {} left, clock {}", counted(fresh.place, "event"), words::time(fresh.clock()));
        *sitting = fresh;
        self.taken.pop();
        Ok(said)
    }

    /// The day as it was before a step.
    fn as_before(&self, sitting: &Sitting, step: &Step) -> Result<Sitting, String> {
        let state = State::armed(&self.profile).map_err(|refused| refused.to_string())?;
        let mut fresh = Sitting::new(state, &sitting.sources.profile, &self.profile);
        let mut pieces = sitting.day.pieces()?;
        while fresh.place < step.place {
            let piece = pieces.next(Time::START)?.ok_or("the day's records end too early")?;
            fresh.pass_piece(&piece);
        }
        fresh.unsaved = step.unsaved.min(sitting.unsaved);
        fresh.sources.typed = step.typed;
        fresh.sources.replayed = sitting.sources.replayed[..step.files].to_vec();
        Ok(fresh)
    }
}
