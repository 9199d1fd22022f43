//! What several tests begin with.
#![allow(dead_code)]

pub mod books;
pub mod history;
pub mod profile;
pub mod record16;
pub mod runs;

use second::unit::{Away, Unit, LOG_PLACES};

/// The last millisecond of the day.
pub const LAST: u64 = 86_399_999;

/// A unit armed from the text, which is a good one.
pub fn armed(text: &str) -> Unit {
    let mut unit = Unit::new();
    assert_eq!(unit.arm(text.as_bytes()).refusal, 0);
    unit
}

/// Asserts the row of an event that must change nothing.
pub fn refused(unit: &Unit, refusal: u64, call: impl FnOnce(&mut Unit) -> [u64; 5]) {
    let mut copy = unit.clone();
    assert_eq!(call(&mut copy), [refusal, 0, 0, 0, 0]);
    assert_eq!(&copy, unit);
}

/// A unit with a full log at time 0 under a window of so many milliseconds.
pub fn full_log(window: u64) -> Unit {
    let mut unit = armed(&format!("A,rate_vol,X,1000000000,{window}"));
    for _ in 0..LOG_PLACES {
        assert_eq!(unit.offer(0, 0, 0, 1, 1).grant, 1);
    }
    unit
}

/// An order on root 0 and unit 0 at the least premium.
pub fn order(identity: u64, contracts: u64, reports: u64) -> Away {
    Away { identity, root: 0, unit: 0, premium: 1, contracts, reports }
}
