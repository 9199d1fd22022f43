//! What people type and read, whatever it is about: times, amounts, lines of text, JSON.
//!
//! May use: no other room.

mod amounts;
pub mod json;
mod nearest;
mod text;
mod times;

pub use amounts::{at_premium, counted, dollars, grouped, premium, read_contracts, read_premium, reset, unit, Amount};
pub use nearest::nearest;
pub use text::{listed, plain, set_in, shortened, wrapped};
pub use times::{looks_like_time, read_time, span, time, TIME_FORMS};
