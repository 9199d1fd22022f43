//! What stands on the page's desk: a profile, the day on the unit that it armed, and what was undone of it.

use crate::answers::evening;
use crate::answers::table;
use crate::explain::check;
use crate::library::piece::Piece;
use crate::library::state::State;
use crate::serve::log::Entry;
use crate::session::sitting::Sitting;
use crate::typed::command::{self, Command};
use crate::typed::help;
use crate::typed::names::Names;
use crate::words::counted;
use mbrumzheg::Event;

/// More events than this are for `desk report`.
const MOST_EVENTS: usize = 100_000;

/// A piece of the day, and whether it was typed or came from a file.
pub(crate) type Typed = (Piece, bool);

/// The page's desk.
#[derive(Default)]
pub struct Bench {
    /// The profile's name and text, whether or not it is armed.
    pub profile: (String, Vec<u8>),
    /// The day, if the state is armed.
    pub sitting: Option<Sitting>,
    /// A line for each of its records.
    pub log: Vec<Entry>,
    /// Pieces that were undone, in the order in which they came.
    pub undone: Vec<Typed>,
    pub(crate) typed: Vec<bool>,
    /// The names of files that were replayed, and the place of each one's first record.
    pub(crate) files: Vec<(usize, String)>,
    pub(crate) saved: Option<String>,
    /// The day that was cleared last.
    before: Option<Box<Bench>>,
}

/// What a line came to.
#[derive(Debug, PartialEq, Eq)]
pub enum Said {
    /// An event was passed.
    Event(Entry),
    /// Something was shown.
    Words(String),
}

/// What can be typed here.
const TYPED: &str = "offer, order, lock, away, back, close, remaining, profile, account, status or help";
const ARM_FIRST: &str = "the unit is not armed, so nothing can be passed or asked (refusal 4); arm it first";

impl Bench {
    /// A desk with a profile that is not armed yet.
    pub fn with_profile(name: &str, text: Vec<u8>) -> Bench {
        Bench { profile: (name.to_string(), text), ..Bench::default() }
    }

    /// Arms a state from a profile.
    pub fn arm(&mut self, name: &str, text: &[u8]) -> Result<String, String> {
        if let Some(sitting) = &self.sitting {
            return Err(format!("armed already for {} (refusal 3); clear it first", sitting.profile.firm));
        }
        self.profile = (name.to_string(), text.to_vec());
        let state = State::armed(text).map_err(|why| check::refused(text, why))?;
        let sitting = Sitting::new(state, name, text);
        let words = check::armed(&sitting.profile, sitting.profile.rules.len());
        self.sitting = Some(sitting);
        Ok(words)
    }

    /// Gives the state up; the day can be brought back.
    pub fn clear(&mut self) -> Result<String, String> {
        self.armed()?;
        let profile = self.profile.clone();
        let cleared = std::mem::replace(self, Bench { profile, ..Bench::default() });
        self.before = Some(Box::new(Bench { before: None, ..cleared }));
        Ok("cleared: the unit holds no rules, and nothing may pass until it is armed  [0]".to_string())
    }

    /// Brings back the day that was cleared.
    pub fn bring_back(&mut self) -> Result<String, String> {
        if self.sitting.is_some() {
            return Err("a day is on the desk; clear it first".to_string());
        }
        let before = self.before.take().ok_or("no day was cleared")?;
        *self = *before;
        Ok(format!("brought back: {}", counted(self.place(), "event")))
    }

    /// Whether a cleared day can be brought back.
    pub fn has_before(&self) -> bool {
        self.before.is_some()
    }

    /// Carries out a line as it would be typed at the desk: an event, or a question.
    pub fn line(&mut self, line: &str) -> Result<Said, String> {
        let sitting = self.armed()?;
        let names = Names::of(sitting);
        let command = command::read(line)?;
        if let Some(event) = names.event(&command) {
            return self.event(event?).map(Said::Event);
        }
        match command {
            Command::Status => table::status(sitting).map(Said::Words).map_err(|refusal| refusal.to_string()),
            Command::Account(None) => Ok(Said::Words(evening::table(&sitting.profile, &sitting.account))),
            Command::Profile(None) => sitting.active().map(|text| Said::Words(text.trim_end().to_string())),
            Command::Remaining(words) => {
                let (time, shown) = names.table(&words)?;
                table::rules(sitting, time, shown).map(Said::Words)
            }
            Command::Help(None) => Ok(Said::Words(help::list())),
            Command::Help(Some(name)) => help::on(&name).map(Said::Words).ok_or_else(|| format!("there is no help on '{name}'")),
            Command::Nothing => Err(format!("type {TYPED}")),
            _ => Err(format!("here this is done by a button; type {TYPED}")),
        }
    }

    /// Passes an event; what was undone before is then given up.
    fn event(&mut self, event: Event) -> Result<Entry, String> {
        self.has_room(1)?;
        self.give_up_undone();
        Ok(self.pass(&Piece::of(event), true))
    }

    /// What was undone cannot be done again once another event stands in its place.
    pub(crate) fn give_up_undone(&mut self) {
        let place = self.place();
        self.undone.clear();
        self.files.retain(|(first, _)| *first <= place);
    }

    pub(crate) fn has_room(&self, more: usize) -> Result<(), String> {
        if self.place() + more <= MOST_EVENTS {
            return Ok(());
        }
        Err(format!("the page takes at most {}; for a longer day use desk report", counted(MOST_EVENTS, "event")))
    }

    /// Passes a piece on the armed state.
    pub(crate) fn pass(&mut self, piece: &Piece, typed: bool) -> Entry {
        let Some(sitting) = self.sitting.as_mut() else { unreachable!("only an armed desk passes events") };
        sitting.sources.typed += usize::from(typed);
        let passed = sitting.pass_piece(piece);
        let entry = Entry::of(sitting, &passed);
        self.log.push(entry.clone());
        self.typed.push(typed);
        entry
    }

    /// The day's account as a table of commas.
    pub fn account(&self) -> Result<String, String> {
        self.armed().map(|sitting| evening::csv(&sitting.profile, &sitting.account))
    }

    /// The active rules as a profile's text.
    pub fn active(&self) -> Result<String, String> {
        self.armed()?.active()
    }

    /// How many events were passed.
    pub fn place(&self) -> usize {
        self.sitting.as_ref().map_or(0, |sitting| sitting.place)
    }

    pub(crate) fn armed(&self) -> Result<&Sitting, String> {
        self.sitting.as_ref().ok_or_else(|| ARM_FIRST.to_string())
    }
}

/// What a profile comes to: whether it is good, and its rules in words or what is wrong with it.
pub fn checked(text: &[u8]) -> (bool, String) {
    match check::check("the profile", text) {
        Ok(words) => (true, words),
        Err(words) => (false, words),
    }
}
