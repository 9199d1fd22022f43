//! What the desk knows of an accepted profile: its rules, what each of them counts, its roots and levels.
//!
//! May use: words.

mod count;
mod levels;
mod reading;
mod rule;

pub use count::Count;
pub use levels::{level, level_name};
pub use reading::Profile;
pub use rule::{unit_of, Measure, Rule, Scope};
