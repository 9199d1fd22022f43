//! Profiles and events from a seed, for comparing two units or two programs.
//!
//! The same seed gives the same bytes and calls each time.

mod accounts;
mod away;
mod call;
mod damaged;
mod days;
mod draws;
mod events;
mod lines;
mod maker;
mod odd;
mod profiles;
mod random;
mod records;
mod stamped;

pub use accounts::{account_day, AccountDay};
pub use call::Call;
pub use days::day;
pub use events::{events, events_near, records};
pub use maker::Maker;
pub use profiles::{damaged_profile, firm_profile, profile, valid_profile};
pub use random::Random;
pub use records::{bytes12, bytes16, odd16, record16};
pub use stamped::records16;
