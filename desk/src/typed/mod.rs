//! What is typed: the commands with their help, and the words of each made into events against a profile's names.
//!
//! May use: words, library, profile, session.

pub mod asked;
mod away;
pub mod command;
pub mod complete;
pub mod help;
mod meant;
pub mod names;
pub mod shown;
pub mod spoken;
pub mod topics;
