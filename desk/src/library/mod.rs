//! The one room that calls the library on a state or on a record; all others have its types of values alone.
//!
//! May use: words.

pub mod form;
pub mod piece;
pub mod state;
