//! A day replayed record by record on a fresh state: the use of every limit over time, the locks, the figures, what did not simply pass.
//!
//! May use: words, library, profile, records, session, answers, files.

pub mod day;
pub mod entries;
pub mod lane;
pub mod marks;
pub mod scale;
