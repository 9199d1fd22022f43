//! Answers for people: what became of an event, the tables of limits and locks, and the day's account.
//!
//! May use: words, profile, session, typed.

pub mod answer;
pub mod away;
pub mod columns;
pub mod evening;
pub mod locked;
pub mod table;
