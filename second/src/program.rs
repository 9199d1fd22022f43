//! What the programs share: the profile's file, the records of the input, and the event of each.

use std::fs::File;
use std::io::{self, Read};

use crate::event::Event;
use crate::profile::MOST_BYTES;
use crate::records16::{self, BYTES};

/// The text of file `profile`, with one byte beyond the longest so that a longer one is seen; empty if it can't be read.
pub fn profile_text() -> Vec<u8> {
    let mut text = Vec::new();
    let read = File::open("profile").and_then(|file| file.take(MOST_BYTES as u64 + 1).read_to_end(&mut text));
    if read.is_err() {
        text.clear();
    }
    text
}

/// The next record of the input, shorter than the others if the input ends in it; none at the end.
pub fn next_record(input: &mut impl Read) -> Option<Vec<u8>> {
    let mut bytes = [0; BYTES];
    let mut length = 0;
    while length < BYTES {
        match input.read(&mut bytes[length..]) {
            Ok(0) => break,
            Ok(count) => length += count,
            Err(error) if error.kind() == io::ErrorKind::Interrupted => {}
            Err(_) => break,
        }
    }
    (length > 0).then(|| bytes[..length].to_vec())
}

/// The event of a record's bytes, or the refusal of a faulty one.
pub fn event(bytes: &[u8]) -> Result<Event, u64> {
    let answer = records16::read(bytes);
    match answer.refusal {
        0 => Ok(Event::of(&answer.record)),
        refusal => Err(refusal),
    }
}
