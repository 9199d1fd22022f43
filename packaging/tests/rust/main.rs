//! The lines of c/example.c, from Rust: its first offers and its order.
use mbrumzheg::{Contracts, Offer, Premium, Reset, Time, Unit, UnitOfRoot};

fn main() -> Result<(), Box<dyn std::error::Error>> {
    let mut unit = Unit::new().arm("ABCD,abs_vol,XYZ,1000,0").map_err(|refused| refused.why)?;
    let root = unit.root_named("XYZ").ok_or("no root")?;
    let premium = Premium::from_ten_thousandths(70_000)?;
    println!("armed {} {} {}", unit.firm(), unit.rule_count(), unit.root_count());
    for (place, ms, contracts) in [(1, 0, 950), (2, 10, 200)] {
        let offer = Offer { time: Time::from_ms(ms)?, root, unit: UnitOfRoot::CallsFront, premium, contracts: Contracts::new(contracts)? };
        let answer = unit.offer(offer)?;
        println!("{place} 0 {} {} {} {}", answer.verdict.number(), answer.grant, answer.root_trip as u8, answer.firm_trip as u8);
    }
    let verdict = unit.order(Time::from_ms(20)?, root, Reset::None)?;
    println!("3 0 {} 0 0 0", verdict.number());
    println!("{}", verdict.text().ok_or("no text")?);
    Ok(())
}
