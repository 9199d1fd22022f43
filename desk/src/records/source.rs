//! Where the pieces of a day come from, one after the other.

use crate::library::form::Form;
use crate::library::piece::Piece;
use mbrumzheg::Time;
use std::io::{self, Read};

/// What gives pieces.
pub trait Source {
    /// The next piece, where the state's clock stands at a time; nothing at the end, or why it cannot be had.
    fn next(&mut self, clock: Time) -> Result<Option<Piece>, String>;
}

/// The records of some bytes, one after the other, of any number; the last may be short.
pub struct Records<R> {
    from: R,
    form: Form,
    bytes: Vec<u8>,
    at: usize,
}

/// So many records are read at a time.
const AT_A_TIME: usize = 4_096;

impl<R: Read> Records<R> {
    /// Reads records of a form from this.
    pub fn new(from: R, form: Form) -> Records<R> {
        Records { from, form, bytes: Vec::new(), at: 0 }
    }

    /// The next record's bytes; none at the end.
    pub fn record(&mut self) -> io::Result<Option<&[u8]>> {
        if self.at >= self.bytes.len() {
            self.at = 0;
            self.bytes.clear();
            self.from.by_ref().take((AT_A_TIME * self.form.size()) as u64).read_to_end(&mut self.bytes)?;
        }
        let record = &self.bytes[self.at..self.bytes.len().min(self.at + self.form.size())];
        self.at += record.len();
        Ok((!record.is_empty()).then_some(record))
    }
}

impl<R: Read> Source for Records<R> {
    fn next(&mut self, _: Time) -> Result<Option<Piece>, String> {
        let form = self.form;
        let record = self.record().map_err(|error| format!("the records cannot be read to their end: {error}"))?;
        Ok(record.map(|bytes| form.piece(bytes)))
    }
}
