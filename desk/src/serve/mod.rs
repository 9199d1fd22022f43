//! The desk as a page at the loopback address, for one person on one machine.
//!
//! May use: words, library, explain, profile, records, session, typed, answers, files, replay, report.

mod bench;
mod guard;
mod http;
mod keeping;
mod log;
mod message;
mod routes;
mod server;
mod state;

pub use bench::{Bench, Said};
pub use guard::Guard;
pub use server::serve;
pub use state::of as state;
