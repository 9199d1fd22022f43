//! A second, independent risk unit, written from the sentences of document 01.
//!
//! It keeps its state in ordinary Rust values and favours plain steps over speed.

pub mod account;
pub mod accounted;
mod answers;
mod away;
mod calls;
mod counting;
pub mod event;
mod fields;
pub mod figures;
pub mod gen;
pub mod lent;
pub mod memory;
pub mod moving;
pub mod place;
pub mod profile;
pub mod profile_out;
pub mod program;
pub mod records;
pub mod records16;
pub mod register;
mod rule;
mod state;
pub mod totals;
pub mod unit;

/// The last millisecond of the day.
pub const LAST_TIME: u64 = 86_399_999;
/// The largest premium, in ten-thousandths of a dollar.
pub const MOST_PREMIUM: u64 = 100_000_000;
/// The largest number of contracts in one offer.
pub const MOST_CONTRACTS: u64 = 1_000_000;

/// Is this number a time of the day?
pub fn is_time(number: u64) -> bool {
    number <= LAST_TIME
}

/// Is this number a premium?
pub fn is_premium(number: u64) -> bool {
    (1..=MOST_PREMIUM).contains(&number)
}

/// Is this number a number of contracts?
pub fn is_contracts(number: u64) -> bool {
    (1..=MOST_CONTRACTS).contains(&number)
}
