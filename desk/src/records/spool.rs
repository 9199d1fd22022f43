//! The pieces of a day: records by their bytes, in memory while they are few and from there on in a file without a name in the system's folder for such.

use crate::library::form::Form;
use crate::library::piece::Piece;
use crate::records::sha256::Sha256;
use crate::records::source::Records;
use mbrumzheg::RECORD16_SIZE;
use std::fs::File;
use std::io::{self, Read, Seek, SeekFrom, Write};

/// So many bytes are kept in memory.
const MOST_HELD: usize = 1 << 20;

/// What a record that came short is filled up with where another follows it: no event's record ends so.
const FILLING: u8 = 0xFF;

/// Every piece that was passed, refused and faulty ones too, byte for byte and in its place.
#[derive(Default)]
pub struct Spool {
    /// The first part, where there is more than memory keeps.
    file: Option<File>,
    /// How many bytes the file has.
    filed: u64,
    /// The last part.
    held: Vec<u8>,
    sum: Sha256,
    filled: Vec<u64>,
}

impl Spool {
    /// Adds a piece: a record's sixteen bytes, or fewer of one that came short.
    pub fn add(&mut self, piece: &Piece) {
        let short = self.bytes() % RECORD16_SIZE as u64;
        if short > 0 {
            self.filled.push(self.records());
            self.put(&[FILLING; RECORD16_SIZE][short as usize..]);
        }
        self.put(piece.bytes());
    }

    fn put(&mut self, bytes: &[u8]) {
        self.sum.add(bytes);
        self.held.extend_from_slice(bytes);
        if self.held.len() >= MOST_HELD && self.spill().is_ok() {
            self.filed += self.held.len() as u64;
            self.held.clear();
        }
    }

    /// Writes what is held behind what the file has; where that fails, memory goes on keeping it.
    fn spill(&mut self) -> io::Result<()> {
        if self.file.is_none() {
            self.file = Some(nameless()?);
        }
        let Some(mut file) = self.file.as_ref() else { return Ok(()) };
        file.seek(SeekFrom::Start(self.filed))?;
        file.write_all(&self.held)
    }

    fn bytes(&self) -> u64 {
        self.filed + self.held.len() as u64
    }

    /// How many pieces there are, a short last record too.
    pub fn records(&self) -> u64 {
        self.bytes().div_ceil(RECORD16_SIZE as u64)
    }

    /// The places of records that came short and were filled up, since others followed.
    pub fn filled(&self) -> &[u64] {
        &self.filled
    }

    /// The sum of the records' bytes.
    pub fn sum(&self) -> String {
        self.sum.hex()
    }

    /// All records' bytes, from the first.
    pub fn reader(&self) -> io::Result<impl Read + '_> {
        let filed: Box<dyn Read> = match self.file.as_ref() {
            Some(mut file) => {
                file.seek(SeekFrom::Start(0))?;
                Box::new(file.take(self.filed))
            }
            None => Box::new(io::empty()),
        };
        Ok(filed.chain(&self.held[..]))
    }

    /// All pieces, from the first.
    pub fn pieces(&self) -> Result<Records<impl Read + '_>, String> {
        let reader = self.reader().map_err(|error| format!("the day's records cannot be read again: {error}"))?;
        Ok(Records::new(reader, Form::New))
    }
}

/// A file that nobody else can open, and that is gone when it is closed.
fn nameless() -> io::Result<File> {
    let folder = std::env::temp_dir();
    for number in 0..1_000 {
        let name = folder.join(format!("desk-{}-{number}.records", std::process::id()));
        match File::options().read(true).write(true).create_new(true).open(&name) {
            Ok(file) => return std::fs::remove_file(&name).map(|()| file),
            Err(error) if error.kind() == io::ErrorKind::AlreadyExists => {}
            Err(error) => return Err(error),
        }
    }
    Err(io::ErrorKind::AlreadyExists.into())
}

#[cfg(test)]
mod tests {
    use super::Spool;
    use crate::library::piece::Piece;
    use crate::records::source::Source;
    use mbrumzheg::Time;
    use std::io::Read;

    fn bytes_of(spool: &Spool) -> Vec<u8> {
        let mut bytes = Vec::new();
        spool.reader().and_then(|mut reader| reader.read_to_end(&mut bytes)).expect("read");
        bytes
    }

    fn pieces_of(spool: &Spool) -> Vec<Piece> {
        let mut pieces = spool.pieces().expect("a reader");
        std::iter::from_fn(|| pieces.next(Time::START).expect("read")).collect()
    }

    #[test]
    fn more_than_memory_keeps_comes_back_byte_for_byte() {
        let mut spool = Spool::default();
        let mut all = Vec::new();
        for number in 0..250_000u32 {
            let mut bytes = [0u8; 16];
            bytes[..4].copy_from_slice(&number.to_be_bytes());
            spool.add(&Piece::of_bytes(&bytes));
            all.extend_from_slice(&bytes);
            // reading in between disturbs nothing
            if number % 90_000 == 0 {
                assert_eq!(bytes_of(&spool), all);
            }
        }
        assert!(spool.file.is_some() && spool.held.len() < super::MOST_HELD);
        assert_eq!(bytes_of(&spool), all);
        assert_eq!((spool.records(), spool.sum()), (250_000, crate::records::sha256::hex(&all)));
        let again: Vec<Piece> = all.chunks(16).map(Piece::of_bytes).collect();
        assert!(pieces_of(&spool) == again);
    }

    #[test]
    fn a_short_record_keeps_its_bytes_and_its_place() {
        for length in 1..16 {
            let mut spool = Spool::default();
            spool.add(&Piece::of_bytes(&vec![0; length]));
            assert_eq!((bytes_of(&spool).len(), spool.records(), spool.filled().len()), (length, 1, 0));
            spool.add(&Piece::of_bytes(&[0; 16]));
            let bytes = bytes_of(&spool);
            assert_eq!((bytes.len(), spool.records(), spool.filled()), (32, 2, &[1][..]));
            assert_eq!(Piece::of_bytes(&bytes[..16]).event(), None, "a record that is filled up is still faulty");
        }
    }
}
