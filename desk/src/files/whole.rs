//! A file of a day read to its end before an event of it is passed, so that all of it is passed or nothing.

use crate::files::opened::Opened;
use crate::library::piece::Piece;
use crate::library::state::State;
use crate::records::source::Source;
use crate::records::spool::Spool;
use crate::words::{counted, grouped};
use mbrumzheg::{Account, Time};

/// Every piece of a file.
pub enum Whole {
    /// Of a day in words.
    Words(Vec<Piece>),
    /// Of a file of records.
    Records(Spool),
}

impl Whole {
    /// Reads a file to its end; a time in words is read at the clock that the lines before it leave on a copy of the state.
    pub fn read(opened: &mut Opened<'_>, copy: Option<State>, account: Account) -> Result<Whole, String> {
        if opened.are_words {
            let copy = copy.ok_or("the state cannot be copied")?;
            return words(&mut *opened.pieces, copy, account).map(Whole::Words);
        }
        records(&mut *opened.pieces).map(Whole::Records)
    }

    /// How many pieces there are.
    pub fn count(&self) -> usize {
        match self {
            Whole::Words(pieces) => pieces.len(),
            Whole::Records(spool) => spool.records() as usize,
        }
    }

    /// The pieces, from the first.
    pub fn pieces(&self) -> Result<Box<dyn Source + '_>, String> {
        match self {
            Whole::Words(pieces) => Ok(Box::new(Held(pieces.iter()))),
            Whole::Records(spool) => Ok(Box::new(spool.pieces()?)),
        }
    }
}

/// Pieces that memory holds.
struct Held<'a>(std::slice::Iter<'a, Piece>);

impl Source for Held<'_> {
    fn next(&mut self, _: Time) -> Result<Option<Piece>, String> {
        Ok(self.0.next().copied())
    }
}

fn words(from: &mut dyn Source, mut copy: State, mut account: Account) -> Result<Vec<Piece>, String> {
    let mut pieces = Vec::new();
    while let Some(piece) = from.next(copy.clock())? {
        // what is refused leaves the clock as it is
        let _ = piece.event().map(|event| copy.answer(&mut account, event));
        pieces.push(piece);
    }
    Ok(pieces)
}

/// Records, of which most must hold an event: other bytes are no day.
fn records(from: &mut dyn Source) -> Result<Spool, String> {
    let (mut spool, mut good) = (Spool::default(), 0);
    while let Some(piece) = from.next(Time::START)? {
        good += u64::from(piece.event().is_some());
        spool.add(&piece);
    }
    is_day(spool.records(), good).map(|()| spool)
}

/// Whether a file with so many records, of which so many hold an event, is a day; why not.
pub fn is_day(records: u64, good: u64) -> Result<(), String> {
    if 2 * good >= records {
        return Ok(());
    }
    Err(format!("it is no day: of its {} only {} hold an event", counted(records as usize, "record"), grouped(good)))
}
