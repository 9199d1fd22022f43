//! A file of records moved from one form to the other: all of it, or nothing where one of them does not move.

use crate::files::disk;
use crate::files::given;
use crate::library::piece::Piece;
use crate::records::source::Records;
use crate::typed::command::{Kept, Move};
use crate::words::{self, counted};
use mbrumzheg::{Event, Refusal, Reset};
use std::cell::Cell;
use std::io::{self, Read, Write};

/// Moves the records of a file to another one; answers what to say of it.
pub fn file(which: Move, from: &str, Kept { file: to, over }: &Kept) -> Result<String, String> {
    let moved = Cell::new(0);
    let (reader, bytes) = given::records(from)?;
    if let Some(bytes) = bytes {
        which.from().fits(bytes).map_err(|why| format!("'{}': {why}", given::shown(from)))?;
    }
    let reader = Cell::new(Some(reader));
    let all = |room: &mut dyn Write| -> io::Result<()> {
        let Some(reader) = reader.take() else { return Ok(()) };
        moved.set(records(which, reader, room)?);
        Ok(())
    };
    disk::write_moved(to, which.name(), *over, all).map_err(|why| format!("{why}; '{}' is not moved", given::shown(from)))?;
    Ok(format!("moved {} of {} bytes to {to}, as records of {}", counted(moved.get(), "record"), which.from().size(), which.to().size()))
}

/// Moves records; how many they were, or which does not move and why.
fn records(which: Move, from: impl Read, to: &mut dyn Write) -> io::Result<usize> {
    let (mut from, mut place) = (Records::new(from, which.from()), 0);
    while let Some(bytes) = from.record()? {
        place += 1;
        let moved = which.from().moved(bytes).map_err(|refusal| io::Error::other(unmoved(place, bytes, refusal)))?;
        to.write_all(&moved)?;
    }
    Ok(place)
}

/// Which record does not move, and why.
fn unmoved(place: usize, bytes: &[u8], refusal: Refusal) -> String {
    let numbered = format!("refused with {}", refusal.number());
    match Piece::of_bytes(bytes).event() {
        Some(event) if refusal == Refusal::Unfit => {
            format!("record {place}, {}, does not fit the old form ({numbered}): {}", named(&event), reasons(&event).join(", and "))
        }
        _ => format!("record {place} is faulty ({numbered}): {}", refusal.sentence()),
    }
}

/// An event by its kind, time and number.
fn named(event: &Event) -> String {
    let time = words::time(event.time());
    let on = event.root().map_or_else(String::new, |root| format!(" on root {root}"));
    match event {
        Event::Order { .. } => format!("an order at {time}{on}"),
        Event::Offer(_) => format!("an offer at {time}{on}"),
        Event::Lockout { .. } => format!("a lockout at {time}{on}"),
        Event::Send(sending) => format!("order {} sent away at {time}{on}", sending.identity),
        Event::Report(report) => format!("a report of order {} at {time}", report.identity),
        Event::Close(closing) => format!("the closing of order {} at {time}", closing.identity),
    }
}

/// Why the old form has no record for an event.
fn reasons(event: &Event) -> Vec<String> {
    let kind = match event {
        Event::Send(_) | Event::Report(_) | Event::Close(_) => Some("it has no such kind".to_string()),
        Event::Order { reset, .. } if *reset > Reset::Both => Some(format!("it has no reset {reset}")),
        _ => None,
    };
    let time = (event.time().micros() > 0).then(|| "its times are whole milliseconds".to_string());
    kind.into_iter().chain(time).collect()
}

#[cfg(test)]
mod tests {
    use super::{records, Move};
    use mbrumzheg::{Closing, Event, Identity, Level, Reset, Root, Time};

    fn order(us: u64, reset: Reset) -> Event {
        Event::Order { time: Time::from_us(us).expect("a time"), root: Root::new(5).expect("a root"), reset }
    }

    fn narrowed(events: &[Event]) -> Result<Vec<u8>, String> {
        let bytes: Vec<u8> = events.iter().flat_map(|event| event.to_record16().expect("every event has one")).collect();
        let mut room = Vec::new();
        records(Move::Narrow, &bytes[..], &mut room).map(|_| room).map_err(|error| error.to_string())
    }

    #[test]
    fn a_file_goes_there_and_back() {
        let lockout = Event::Lockout { time: Time::from_ms(3).expect("a time"), level: Level::Firm };
        let events = [order(1_000, Reset::Both), lockout];
        let old = narrowed(&events).expect("both fit");
        assert_eq!(old, events.map(|event| event.to_record().expect("fits")).concat());
        let mut wide = Vec::new();
        assert_eq!(records(Move::Widen, &old[..], &mut wide).expect("moved"), 2);
        assert_eq!(wide, events.map(|event| event.to_record16().expect("a record")).concat());
    }

    #[test]
    fn what_does_not_move_is_named_with_its_place_and_why() {
        let close = Event::Close(Closing { time: Time::from_us(7_001).expect("a time"), identity: Identity::new(9).expect("an identity") });
        let first = order(1_000, Reset::None);
        for (event, why) in [
            (order(2_000, Reset::TE), "an order at 2ms on root 5, does not fit the old form (refused with 20): it has no reset te"),
            (order(2_250, Reset::None), "an order at 2.250ms on root 5, does not fit the old form (refused with 20): its times are whole milliseconds"),
            (close, "the closing of order 9 at 7.001ms, does not fit the old form (refused with 20): it has no such kind, and its times are whole milliseconds"),
        ] {
            assert_eq!(narrowed(&[first, event, first]), Err(format!("record 2, {why}")));
        }
        let mut room = Vec::new();
        let faulty = records(Move::Widen, &[0xFF; 12][..], &mut room).expect_err("faulty").to_string();
        assert!(faulty.starts_with("record 1 is faulty (refused with 16): the event record is not 16 bytes"), "{faulty}");
        assert!(records(Move::Narrow, &[0; 15][..], &mut room).is_err(), "a short last record");
    }
}
