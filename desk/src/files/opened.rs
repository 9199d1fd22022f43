//! A file of a day opened: its records, or the day in words.

use crate::files::in_words::InWords;
use crate::files::kinds::{self, Kind};
use crate::library::form::Form;
use crate::profile::Profile;
use crate::records::source::{Records, Source};
use std::io::{self, BufReader, Read};

/// A file that was opened.
pub struct Opened<'a> {
    /// Its pieces.
    pub pieces: Box<dyn Source + 'a>,
    /// Whether they are in words.
    pub are_words: bool,
    /// What its length says of the last record, if that is short.
    pub remark: Option<String>,
}

/// The pieces of a file: a day in words, or records of a form, whose number of bytes, where it is known, must not be that of the other. What is neither is
/// told before a piece of it is read.
pub fn of_file<'a>(mut from: impl Read + 'a, bytes: Option<u64>, form: Form, profile: &'a Profile) -> Result<Opened<'a>, String> {
    let mut beginning = Vec::new();
    let read = from.by_ref().take(kinds::LOOKED_AT).read_to_end(&mut beginning);
    read.map_err(|error| format!("it cannot be read: {error}"))?;
    let kind = kinds::of(&beginning, form);
    let whole = io::Cursor::new(beginning).chain(from);
    match kind {
        Kind::NoDay(why) => Err(why.to_string()),
        Kind::Words => Ok(Opened { pieces: Box::new(InWords::new(BufReader::new(whole), profile)), are_words: true, remark: None }),
        Kind::Records => {
            let remark = bytes.map_or(Ok(None), |bytes| form.fits(bytes))?;
            Ok(Opened { pieces: Box::new(Records::new(whole, form)), are_words: false, remark })
        }
    }
}
