//! The bench desk over the proved risk library: load a profile, offer fills, watch the cut, reset, lock a root by hand.
//!
//! Each folder is a room, and its `mod.rs` says which rooms it may use; `tests/rooms.rs` holds them to it.

pub mod answers;
pub mod console;
pub mod explain;
pub mod files;
pub mod library;
pub mod profile;
pub mod program;
pub mod records;
pub mod replay;
pub mod report;
pub mod serve;
pub mod session;
pub mod typed;
pub mod words;
