//! The records of a day as bytes: where they come from one after the other, how they are kept, and their sum.
//!
//! May use: library.

pub mod sha256;
pub mod source;
pub mod spool;
