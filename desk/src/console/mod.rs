//! The desk at a terminal, in a script or a pipe: takes lines, carries each out, answers in words.
//!
//! May use: words, library, explain, records, session, typed, answers, files, replay, report.

mod caution;
pub mod desk;
mod keeping;
pub mod lines;
pub mod paint;
mod undo;
