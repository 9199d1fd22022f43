//! The levels that a trip locks, by number: 0 is the firm, and a root's is one more than its own.

use crate::profile::reading::Profile;
use mbrumzheg::Root;

/// The level of a root, or of the firm.
pub fn level(root: Root, firm: bool) -> usize {
    if firm {
        0
    } else {
        root.number() as usize + 1
    }
}

/// The name of a level.
pub fn level_name(profile: &Profile, level: usize) -> String {
    match level {
        0 => format!("firm {}", profile.firm),
        _ => format!("root {}", profile.root_name(level as u64 - 1)),
    }
}
