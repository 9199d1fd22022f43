//! Records one after the other: read from a stretch of bytes, and written to anything that takes bytes.

use crate::event::Event;
use crate::record::{RECORD16_SIZE, RECORD_SIZE};
use crate::refusal::Refusal;
use core::iter::FusedIterator;
use core::slice::Chunks;
#[cfg(feature = "std")]
use std::io::{self, Write};

/// Gives a form of records its iterator over bytes.
macro_rules! read {
    ($(#[$words:meta])* $name:ident, $size:ident, $read:ident) => {
        $(#[$words])*
        #[derive(Clone, Debug)]
        pub struct $name<'a>(Chunks<'a, u8>);

        impl<'a> $name<'a> {
            /// Reads these bytes.
            pub fn new(bytes: &'a [u8]) -> $name<'a> {
                $name(bytes.chunks($size))
            }
        }

        impl Iterator for $name<'_> {
            type Item = Result<Event, Refusal>;

            fn next(&mut self) -> Option<Self::Item> {
                self.0.next().map(Event::$read)
            }

            fn size_hint(&self) -> (usize, Option<usize>) {
                self.0.size_hint()
            }
        }

        impl ExactSizeIterator for $name<'_> {}
        impl FusedIterator for $name<'_> {}
    };
}
read!(
    /// The records in a stretch of bytes, one after the other; a short last one is refused with 16.
    ///
    /// ```
    /// use mbrumzheg::{Event, Level, Records16, Refusal, Time};
    /// let event = Event::Lockout { time: Time::START, level: Level::Firm };
    /// let mut bytes = event.to_record16().unwrap().to_vec();
    /// bytes.push(0);
    /// assert_eq!(Records16::new(&bytes).collect::<Vec<_>>(), [Ok(event), Err(Refusal::FaultyRecord)]);
    /// ```
    Records16,
    RECORD16_SIZE,
    from_record16
);
read!(
    /// The same of records of the old form.
    ///
    /// ```
    /// use mbrumzheg::{Event, Level, Records, Refusal, Time};
    /// let event = Event::Lockout { time: Time::START, level: Level::Firm };
    /// let mut bytes = event.to_record().unwrap().to_vec();
    /// bytes.push(0);
    /// assert_eq!(Records::new(&bytes).collect::<Vec<_>>(), [Ok(event), Err(Refusal::FaultyRecord)]);
    /// ```
    Records,
    RECORD_SIZE,
    from_record
);

/// Gives a form of records its writer.
#[cfg(feature = "std")]
macro_rules! written {
    ($(#[$words:meta])* $name:ident, $write:ident) => {
        $(#[$words])*
        #[derive(Debug)]
        pub struct $name<W>(W);

        impl<W: Write> $name<W> {
            /// Writes to this.
            pub fn new(to: W) -> $name<W> {
                $name(to)
            }

            /// Writes one event. One that has no record is an [`InvalidInput`](io::ErrorKind::InvalidInput) with the refusal in it, and writes nothing.
            pub fn write(&mut self, event: &Event) -> io::Result<()> {
                let record = event.$write().map_err(|refusal| io::Error::new(io::ErrorKind::InvalidInput, refusal))?;
                self.0.write_all(&record)
            }

            /// Flushes, and gives back what was written to.
            pub fn finish(mut self) -> io::Result<W> {
                self.0.flush()?;
                Ok(self.0)
            }
        }
    };
}
#[cfg(feature = "std")]
written!(
    /// Writes events as records, to a file or anything else that takes bytes.
    Record16Writer,
    to_record16
);
#[cfg(feature = "std")]
written!(
    /// Writes events as records of the old form.
    RecordWriter,
    to_record
);
