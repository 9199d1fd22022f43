//! Random profiles and days for the desk's tests, the same on every run.
#![allow(dead_code)]
use mbrumzheg::{Closing, Contracts, Event, Identity, Level, Offer, Premium, Report, Reports, Reset, Root, Sending, Time, UnitOfRoot};

/// Numbers that look random and are the same on every run.
pub struct Dice(u64);

impl Dice {
    pub fn new(seed: u64) -> Dice {
        Dice(seed.wrapping_mul(0x9E37_79B9_7F4A_7C15) | 1)
    }

    /// A number below `end`.
    pub fn below(&mut self, end: u64) -> u64 {
        self.0 ^= self.0 << 13;
        self.0 ^= self.0 >> 7;
        self.0 ^= self.0 << 17;
        (self.0 >> 11) % end.max(1)
    }

    pub fn pick<T: Copy>(&mut self, among: &[T]) -> T {
        among[self.below(among.len() as u64) as usize]
    }
}

/// A profile that is accepted: up to three roots, at most six rules a root, some of the firm.
pub fn profile(dice: &mut Dice) -> String {
    let mut text = String::new();
    for root in &["XYZ", "QQQ", "7"][..dice.below(4) as usize] {
        for _ in 0..1 + dice.below(6) {
            let unit = dice.pick(&["", ",,", ",,C,F", ",,C,T", ",,P,F", ",,P,T", ",<i>&x", ",,,"]);
            text.push_str(&format!("ABCD,{},{root},{},{}{unit}\n", kind(dice), limit(dice), window(dice)));
        }
    }
    for _ in 0..dice.below(5) + u64::from(text.is_empty()) {
        text.push_str(&format!("ABCD,{},,{},{},T\n", kind(dice), limit(dice), window(dice)));
    }
    if dice.below(2) == 0 {
        text.pop();
    }
    text
}

fn kind(dice: &mut Dice) -> &'static str {
    dice.pick(&["rate_ntnl", "rate_vol", "rate_count", "abs_ntnl", "abs_vol", "abs_count"])
}

fn limit(dice: &mut Dice) -> &'static str {
    dice.pick(&["1", "3", "0010", "50", "200", "000000000700", "5000"])
}

fn window(dice: &mut Dice) -> &'static str {
    dice.pick(&["", "0", "99", "100", "250", "1000", "00060000"])
}

/// An event at a time not far after the one given, now and then one that is refused.
pub fn event(dice: &mut Dice, clock: u64, roots: u64) -> Event {
    let ms = match dice.below(40) {
        0 => clock.saturating_sub(5),
        1 => clock + 5_000,
        _ => clock + dice.pick(&[0, 0, 1, 40, 100, 250, 999]),
    };
    // microseconds, too, in two of five
    let us = ms * 1_000 + [0, 250, 0, 999, 0][(ms % 5) as usize];
    let time = Time::from_us(us.min(Time::LAST.us())).expect("a time");
    let number = if dice.below(50) == 0 { 63 } else { dice.below(roots.max(1)) };
    let root = Root::new(number).expect("a root");
    match dice.below(20) {
        0 => Event::Lockout { time, level: if dice.below(2) == 0 { Level::Firm } else { Level::Root(root) } },
        1..=5 => Event::Order { time, root, reset: dice.pick(&Reset::ALL) },
        6 | 7 => {
            let Offer { unit, premium, contracts, .. } = offer(dice, time, root);
            let reports = Reports::new(dice.pick(&[1, 2, 3, 16])).expect("reports");
            Event::Send(Sending { time, root, unit, premium, contracts, identity: identity(dice), reports })
        }
        8..=11 => {
            let contracts = Contracts::new(dice.pick(&[1, 2, 5, 30])).expect("contracts");
            Event::Report(Report { time, identity: identity(dice), contracts })
        }
        12 if dice.below(3) == 0 => Event::Close(Closing { time, identity: identity(dice) }),
        _ => Event::Offer(offer(dice, time, root)),
    }
}

fn offer(dice: &mut Dice, time: Time, root: Root) -> Offer {
    Offer {
        time,
        root,
        unit: dice.pick(&UnitOfRoot::ALL),
        premium: Premium::from_ten_thousandths(dice.pick(&[1, 70, 10_000, 25_000, 70_000])).expect("a premium"),
        contracts: Contracts::new(dice.pick(&[1, 2, 9, 30, 100])).expect("contracts"),
    }
}

/// One of a few, so that reports often meet an order that is open.
fn identity(dice: &mut Dice) -> Identity {
    Identity::new(dice.pick(&[0, 7, 65_535])).expect("an identity")
}

/// The same with its record.
pub fn recorded(dice: &mut Dice, clock: u64, roots: u64) -> ([u8; 16], Event) {
    let event = event(dice, clock, roots);
    (event.to_record16().expect("every event has a record"), event)
}
