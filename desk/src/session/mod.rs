//! The sitting: an armed state, the day that it was passed, and what the desk reckons of it: uses, locks, open orders, sums.
//!
//! May use: words, library, profile, records.

pub mod ledger;
pub mod passed;
pub mod register;
pub mod resets;
pub mod sitting;
pub mod standing;
pub mod sums;
