//! The two forms that records come in: of 16 bytes with microseconds, and the old one of 12.

use crate::library::piece::Piece;
use crate::words::counted;
use mbrumzheg::{narrow, widen, Refusal, RECORD16_SIZE, RECORD_SIZE};

/// A form of records.
#[derive(Clone, Copy, Debug, Default, PartialEq, Eq)]
pub enum Form {
    /// 16 bytes.
    #[default]
    New,
    /// 12 bytes.
    Old,
}

impl Form {
    /// The form that is asked for by a word, or not.
    pub fn asked(old: bool) -> Form {
        if old {
            Form::Old
        } else {
            Form::New
        }
    }

    /// How many bytes a record has.
    pub const fn size(self) -> usize {
        match self {
            Form::New => RECORD16_SIZE,
            Form::Old => RECORD_SIZE,
        }
    }

    /// The other form.
    pub const fn other(self) -> Form {
        match self {
            Form::New => Form::Old,
            Form::Old => Form::New,
        }
    }

    /// The piece of a record's bytes. One of the old form is moved; where it holds no event, its bytes stay, which are too few for one.
    pub fn piece(self, bytes: &[u8]) -> Piece {
        match self {
            Form::New => Piece::of_bytes(bytes),
            Form::Old => widen(bytes).map_or_else(|_| Piece::of_bytes(bytes), |wide| Piece::of_bytes(&wide)),
        }
    }

    /// A record of this form in the other.
    pub fn moved(self, bytes: &[u8]) -> Result<Vec<u8>, Refusal> {
        match self {
            Form::New => narrow(bytes).map(|old| old.to_vec()),
            Form::Old => widen(bytes).map(|wide| wide.to_vec()),
        }
    }

    /// What is to be said of a file of records of this form that has so many bytes: nothing where they are whole records, that the last is short where they
    /// are so in neither form, and an error with what to do where they are records of the other.
    pub fn fits(self, bytes: u64) -> Result<Option<String>, String> {
        let whole = |form: Form| bytes % form.size() as u64 == 0;
        match (whole(self), whole(self.other())) {
            (true, _) => Ok(None),
            (false, false) => Ok(Some(format!(
                "its {} fit neither records of 16 bytes nor old ones of 12: the last is short",
                counted(bytes as usize, "byte")
            ))),
            (false, true) => {
                let (size, other) = (self.size(), self.other().size());
                let records = counted((bytes / other as u64) as usize, "record");
                let advice = match self {
                    Form::New => "say old (--old in a call) to read them so, or move the file with desk widen",
                    Form::Old => "leave out old",
                };
                Err(format!("its {} are no records of {size} bytes, but {records} of {other}: {advice}", counted(bytes as usize, "byte")))
            }
        }
    }
}

#[cfg(test)]
mod tests {
    use super::Form;
    use mbrumzheg::{Event, Level, Time};

    #[test]
    fn a_files_length_is_told() {
        assert_eq!([0, 16, 48, 160].map(|bytes| Form::New.fits(bytes)), [const { Ok(None) }; 4]);
        assert_eq!([0, 12, 48, 120].map(|bytes| Form::Old.fits(bytes)), [const { Ok(None) }; 4]);
        let short = "its 37 bytes fit neither records of 16 bytes nor old ones of 12: the last is short";
        assert_eq!([Form::New, Form::Old].map(|form| form.fits(37)), [Ok(Some(short.to_string())), Ok(Some(short.to_string()))]);
        let advice = "its 36 bytes are no records of 16 bytes, but 3 records of 12: say old (--old in a call) to read them so, or move the file with desk widen";
        assert_eq!(Form::New.fits(36), Err(advice.to_string()));
        assert_eq!(Form::Old.fits(16), Err("its 16 bytes are no records of 12 bytes, but 1 record of 16: leave out old".to_string()));
    }

    #[test]
    fn an_old_record_is_moved_and_a_faulty_one_stays_faulty() {
        let event = Event::Lockout { time: Time::from_ms(7).expect("a time"), level: Level::Firm };
        assert_eq!(Form::Old.piece(&event.to_record().expect("whole milliseconds")).event(), Some(event));
        let faulty = Form::Old.piece(&[0xFF; 12]);
        assert_eq!((faulty.event(), faulty.bytes()), (None, &[0xFF; 12][..]));
    }
}
