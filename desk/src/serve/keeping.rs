//! What the page's desk keeps of a day: it can be replayed from a file, gone back and forth in, saved and reported.

use crate::files::in_words;
use crate::files::opened;
use crate::files::progress::Progress;
use crate::files::whole::Whole;
use crate::library::form::Form;
use crate::library::state::State;
use crate::records::source::Source;
use crate::replay::day::Day;
use crate::report::{self, Made};
use crate::serve::bench::{Bench, Typed};
use crate::session::sitting::Sitting;
use crate::words::counted;
use mbrumzheg::Time;
use std::io::Read;

impl Bench {
    /// Passes every record of a file, or every event of a day in words; nothing where one of them cannot be read.
    pub fn replay(&mut self, name: &str, bytes: &[u8], form: Form) -> Result<String, String> {
        let (whole, remark) = read(self.armed()?, bytes, form).map_err(|why| format!("{name} is left alone, since {why}"))?;
        self.has_room(whole.count())?;
        let mut pieces = whole.pieces()?;
        self.give_up_undone();
        self.files.push((self.place() + 1, name.to_string()));
        while let Some(piece) = pieces.next(Time::START)? {
            self.pass(&piece, false);
        }
        self.name_files();
        let remark = remark.map_or_else(String::new, |remark| format!("; {remark}"));
        Ok(format!("replayed {} of {name}{remark}", counted(whole.count(), "record")))
    }

    /// Goes to the day as it was after so many events, back or forth, by a replay on a fresh state.
    pub fn go(&mut self, place: usize) -> Result<String, String> {
        let all = self.pieces()?;
        if place > all.len() {
            return Err(format!("there are {}, so there is no place {place} to go to", counted(all.len(), "event")));
        }
        let (name, text) = self.profile.clone();
        let state = State::armed(&text).map_err(|refused| refused.to_string())?;
        self.sitting = Some(Sitting::new(state, &name, &text));
        self.log.clear();
        self.typed.clear();
        all[..place].iter().for_each(|(piece, typed)| drop(self.pass(piece, *typed)));
        self.undone = all[place..].to_vec();
        self.name_files();
        Ok(format!("the day as it was after {}", counted(place, "event")))
    }

    /// Notes the files that the day's records came from.
    fn name_files(&mut self) {
        let place = self.place();
        let names = self.files.iter().filter(|(first, _)| *first <= place).map(|(_, name)| name.clone()).collect();
        if let Some(sitting) = self.sitting.as_mut() {
            sitting.sources.replayed = names;
        }
    }

    /// Every piece, those that were undone at the end.
    fn pieces(&self) -> Result<Vec<Typed>, String> {
        let mut from = self.armed()?.day.pieces()?;
        let mut all = Vec::new();
        while let Some(piece) = from.next(Time::START)? {
            all.push((piece, self.typed.get(all.len()).copied().unwrap_or_default()));
        }
        all.extend_from_slice(&self.undone);
        Ok(all)
    }

    /// The day's records as a file has them, which then counts as saved.
    pub fn save(&mut self) -> Result<Vec<u8>, String> {
        let sitting = self.armed()?;
        let mut bytes = Vec::new();
        let read = sitting.day.reader().and_then(|mut reader| reader.read_to_end(&mut bytes));
        read.map_err(|error| format!("the day's records cannot be read again: {error}"))?;
        self.saved = Some(sitting.day.sum());
        Ok(bytes)
    }

    /// The day in words, which then counts as saved.
    pub fn save_words(&mut self) -> Result<Vec<u8>, String> {
        let sitting = self.armed()?;
        let words = in_words::of_day(&sitting.profile, &sitting.day)?;
        self.saved = Some(sitting.day.sum());
        Ok(words)
    }

    /// Whether there are events that no saved file has.
    pub fn is_unsaved(&self) -> bool {
        self.sitting.as_ref().is_some_and(|sitting| sitting.place > 0 && self.saved.as_ref() != Some(&sitting.day.sum()))
    }

    /// The report that a file of this name gets.
    pub fn report(&self, file: &str) -> Result<String, String> {
        let sitting = self.armed()?;
        if sitting.place == 0 {
            return Err("there is nothing to report yet; pass an event first".to_string());
        }
        let day = Day::replayed(&sitting.profile, &mut sitting.day.pieces()?, None, &mut Progress::of(None))?;
        Ok(report::of_name(file, &sitting.profile, &day, &Made::at_the_desk(sitting)))
    }
}

/// A file read to its end on a copy of the state; and what its length says of the last record.
fn read(sitting: &Sitting, bytes: &[u8], form: Form) -> Result<(Whole, Option<String>), String> {
    let mut opened = opened::of_file(bytes, Some(bytes.len() as u64), form, &sitting.profile)?;
    let whole = Whole::read(&mut opened, sitting.state().copied(), sitting.account.clone())?;
    Ok((whole, opened.remark))
}
