//! Files that the desk reads and writes: profiles, records in both forms, days in words, reports.
//!
//! May use: words, library, profile, records, typed.

pub mod disk;
pub mod given;
pub mod in_words;
mod kinds;
pub mod moving;
pub mod opened;
pub mod progress;
pub mod whole;
