//! The lines by which it is counted how far back an offer reads the log.

use super::Line;
use crate::scripts::{Kind, Step};

/// When the oldest entry joins; the others follow a millisecond apart.
const FIRST: u64 = 1_000;
/// The rules' window.
const WINDOW: u64 = 60_000;
/// How many entries a long log has.
pub const LONG: u64 = 512;

/// A call on logs of different length.
pub struct Readings {
    /// The newest entry of two is inside the window.
    pub short: Line,
    /// The newest entry of 512 is.
    pub one: Line,
    /// All 512 are.
    pub all: Line,
}

/// Arms, and fills the log with so many entries: all on unit 0, and the newest on unit 1, whose limit it reaches.
fn filled(entries: u64) -> Vec<Step> {
    let profile = format!("ABCD,rate_vol,XYZ,1000000,{WINDOW},,C,F\nABCD,rate_vol,XYZ,5,{WINDOW},,C,T\n");
    let fill = |n: u64| Step::new(Kind::Offer, &[FIRST + n, 0, u64::from(n + 1 == entries), 70_000, 5]);
    [Step::arm(profile.into_bytes())].into_iter().chain((0..entries).map(fill)).collect()
}

/// A call at a time while the newest entry is inside the window: the one before it is not, or every entry is.
fn at(entries: u64, all: bool, call: fn(u64) -> Step) -> Line {
    let newest = FIRST + entries - 1;
    let time = if all { newest } else { newest - 1 + WINDOW };
    let words = if all { "all" } else { "one" };
    Line::new(format!("{entries} entries, {words} inside the window"), &filled(entries), call(time))
}

fn of(call: fn(u64) -> Step) -> Readings {
    Readings { short: at(2, false, call), one: at(LONG, false, call), all: at(LONG, true, call) }
}

/// Offers that are granted nothing, so that no entry joins or leaves.
pub fn offers() -> Readings {
    of(|time| Step::new(Kind::Offer, &[time, 0, 1, 70_000, 5]))
}

/// Orders without reset, which test the same memory and read no entry.
pub fn orders() -> Readings {
    of(|time| Step::new(Kind::Order, &[time, 0, 0]))
}
