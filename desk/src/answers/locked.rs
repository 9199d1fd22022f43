//! Why something is locked, in words.

use crate::profile::level;
use crate::session::sitting::Sitting;
use mbrumzheg::{Marks, Root, Verdict};

/// That something was rejected, and why.
pub fn rejected(sitting: &Sitting, verdict: Verdict, root: Root) -> String {
    let text = verdict.text().map_or_else(String::new, |text| text.to_string());
    let (what, marks) = match verdict {
        Verdict::FirmLocked => (format!("firm {}", sitting.profile.firm), sitting.marks(0)),
        _ => (format!("root {}", sitting.profile.root_name(root.number())), sitting.marks(level(root, false))),
    };
    format!("rejected, {what} is {} ({text})", why_locked(marks))
}

/// Why something is locked, in words; "free" if it is not.
pub fn why_locked(marks: Marks) -> &'static str {
    match (marks.tripped, marks.locked_by_user) {
        (true, true) => "tripped and locked by hand",
        (true, false) => "tripped",
        (false, true) => "locked by hand",
        (false, false) => "free",
    }
}
