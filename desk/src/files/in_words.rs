//! A day in words, for people: after a line that says so each event as it would be typed, and the bytes of records that hold none.

use crate::library::piece::Piece;
use crate::profile::Profile;
use crate::records::source::Source;
use crate::records::spool::Spool;
use crate::typed::command::{self, Command};
use crate::typed::names::Names;
use crate::typed::spoken::typed;
use mbrumzheg::{Event, Time, RECORD16_SIZE};
use std::io::{self, BufRead, Read, Write};

/// The first line of a day in words. No record's bytes begin so: as a lockout's they would have a premium or, in the old form, as an order's contracts.
pub const HEAD: &str = "# a day at the desk, in words\n";

/// A longer line is no event.
const LONGEST: u64 = 1_024;

/// A day that was kept, in words.
pub fn of_day(profile: &Profile, day: &Spool) -> Result<Vec<u8>, String> {
    let mut bytes = Vec::new();
    write(profile, &mut day.pieces()?, &mut bytes).map_err(|error| error.to_string())?;
    Ok(bytes)
}

/// Writes a day in words.
pub fn write(profile: &Profile, day: &mut dyn Source, to: &mut dyn Write) -> io::Result<()> {
    to.write_all(HEAD.as_bytes())?;
    while let Some(piece) = day.next(Time::START).map_err(io::Error::other)? {
        writeln!(to, "{}", line(profile, &piece))?;
    }
    Ok(())
}

/// A piece as a line. A record whose event cannot be typed, since it holds none or the profile does not name its root, is written by its bytes.
fn line(profile: &Profile, piece: &Piece) -> String {
    let is_named = |event: &Event| event.root().is_none_or(|root| (root.number() as usize) < profile.roots.len());
    match piece.event().filter(is_named) {
        Some(event) => typed(profile, &event),
        None => format!("record {}", piece.bytes().iter().map(|byte| format!("{byte:02x}")).collect::<String>()),
    }
}

/// A day in words, read line by line.
pub struct InWords<'a, R> {
    from: R,
    profile: &'a Profile,
    number: usize,
}

impl<'a, R: BufRead> InWords<'a, R> {
    /// Reads from this, with the names of a profile.
    pub fn new(from: R, profile: &'a Profile) -> InWords<'a, R> {
        InWords { from, profile, number: 0 }
    }

    /// The next line without its end; none at the end.
    fn line(&mut self) -> Result<Option<String>, String> {
        let mut bytes = Vec::new();
        let read = self.from.by_ref().take(LONGEST).read_until(b'\n', &mut bytes);
        self.number += 1;
        match read {
            Ok(0) => Ok(None),
            Ok(_) if bytes.len() as u64 == LONGEST => Err(format!("line {} is longer than any event", self.number)),
            // some editors put a mark before a text
            Ok(_) => Ok(Some(String::from_utf8_lossy(&bytes).trim_start_matches('\u{FEFF}').trim().to_string())),
            Err(error) => Err(format!("the day cannot be read to its end: {error}")),
        }
    }
}

impl<R: BufRead> Source for InWords<'_, R> {
    fn next(&mut self, clock: Time) -> Result<Option<Piece>, String> {
        while let Some(line) = self.line()? {
            let names = Names { profile: self.profile, clock };
            if let Some(piece) = piece(names, &line).map_err(|why| format!("line {}: {why}", self.number))? {
                return Ok(Some(piece));
            }
        }
        Ok(None)
    }
}

/// The piece of a line; none of an empty line or a comment.
fn piece(names: Names, line: &str) -> Result<Option<Piece>, String> {
    if let Some(digits) = line.strip_prefix("record ") {
        return record(digits).map(Some).ok_or_else(|| format!("'{digits}' are not the bytes of a record"));
    }
    match command::read(line)? {
        Command::Nothing => Ok(None),
        command => match names.event(&command) {
            Some(event) => event.map(|event| Some(Piece::of(event))),
            None => Err("that is no event".to_string()),
        },
    }
}

/// The bytes of digits in base 16, two a byte, of one to sixteen bytes.
fn record(digits: &str) -> Option<Piece> {
    let is_whole =
        digits.len() % 2 == 0 && (1..=RECORD16_SIZE).contains(&(digits.len() / 2)) && digits.bytes().all(|digit| digit.is_ascii_hexdigit());
    let byte = |at: usize| digits.get(2 * at..2 * at + 2).and_then(|two| u8::from_str_radix(two, 16).ok());
    let bytes: Option<Vec<u8>> = if is_whole { (0..digits.len() / 2).map(byte).collect() } else { None };
    bytes.map(|bytes| Piece::of_bytes(&bytes))
}
