//! What a day has at one place: the bytes of a record.

use mbrumzheg::{Event, RECORD16_SIZE};

/// The bytes of a record, whether or not it holds an event; fewer than sixteen of one that came short.
#[derive(Clone, Copy, Debug, PartialEq, Eq)]
pub struct Piece {
    bytes: [u8; RECORD16_SIZE],
    length: usize,
}

impl Piece {
    /// From at most sixteen bytes; more are left out.
    pub fn of_bytes(bytes: &[u8]) -> Piece {
        let length = bytes.len().min(RECORD16_SIZE);
        let mut piece = Piece { bytes: [0; RECORD16_SIZE], length };
        piece.bytes[..length].copy_from_slice(&bytes[..length]);
        piece
    }

    /// The record of an event.
    pub fn of(event: Event) -> Piece {
        Piece::of_bytes(&event.to_record16().expect("every event has a record"))
    }

    /// The bytes.
    pub fn bytes(&self) -> &[u8] {
        &self.bytes[..self.length]
    }

    /// The event, if there is one.
    pub fn event(&self) -> Option<Event> {
        Event::from_record16(self.bytes()).ok()
    }
}

#[cfg(test)]
mod tests {
    use super::Piece;
    use mbrumzheg::{Closing, Event, Identity, Reset, Root, Time};

    #[test]
    fn every_event_is_kept_as_its_record() {
        let order = |reset| Event::Order { time: Time::LAST, root: Root::new(3).expect("a root"), reset };
        let close = Event::Close(Closing { time: Time::START, identity: Identity::new(65_535).expect("an identity") });
        for event in Reset::ALL.map(order).into_iter().chain([close]) {
            assert_eq!(Piece::of(event).event(), Some(event));
        }
        assert_eq!(Piece::of_bytes(&[0xFF; 16]).event(), None);
        assert_eq!((Piece::of_bytes(&[7; 5]).bytes(), Piece::of_bytes(&[7; 20]).bytes().len()), (&[7; 5][..], 16));
    }
}
