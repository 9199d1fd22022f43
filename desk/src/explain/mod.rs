//! What is wrong with a line of a profile, where, and how to mend it; and what an accepted profile means. Whether a profile is good, the library alone decides,
//! by a number and a line: what stands here goes beside its answer.
//!
//! May use: words, library, profile.

mod characters;
pub mod check;
mod clashes;
mod counts;
mod fault;
mod fields;
mod further;
mod malformed;
mod refused;
mod show;
mod warn;

pub use fault::{lines, Fault};
pub use further::further;
pub use refused::{faults, of_refusal, refused};
pub use show::shown;
pub use warn::{warnings, Warning};
