//! What several tests need: values that are in range, and an armed unit.
#![allow(dead_code)]

use mbrumzheg::{Armed, Contracts, Offer, Premium, Root, Time, Unit, UnitOfRoot};

pub type ArmedUnit = Unit<Box<[u64]>, Armed>;

pub fn time(ms: u64) -> Time {
    Time::from_ms(ms).expect("a time of the day")
}

pub fn root(number: u64) -> Root {
    Root::new(number).expect("a root number")
}

pub fn contracts(count: u64) -> Contracts {
    Contracts::new(count).expect("contracts")
}

/// An offer on root 0.
pub fn offer(ms: u64, unit: UnitOfRoot, dollars: u64, count: u64) -> Offer {
    let premium = Premium::from_ten_thousandths(dollars * 10_000).expect("a premium");
    Offer { time: time(ms), root: root(0), unit, premium, contracts: contracts(count) }
}

pub fn armed(profile: &str) -> ArmedUnit {
    Unit::new().arm(profile).expect("the profile is accepted")
}
