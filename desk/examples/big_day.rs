//! Writes a profile and a day of records, drawn from a seed: `big_day SEED RECORDS RULES FOLDER [TIGHT]`. Limits are divided by TIGHT, so that rules trip
//! all day. For trying pages and their speed on days of any size.

use mbrumzheg::{Contracts, Event, Level, Offer, Premium, Record16Writer, Reset, Root, Time, UnitOfRoot};
use std::fs::File;
use std::io::{self, BufWriter, Write};
use std::path::Path;
use std::process::ExitCode;

/// Numbers that look random and are the same on every run.
struct Dice(u64);

impl Dice {
    fn below(&mut self, end: u64) -> u64 {
        self.0 ^= self.0 << 13;
        self.0 ^= self.0 >> 7;
        self.0 ^= self.0 << 17;
        (self.0 >> 11) % end
    }
}

/// Rules in groups of four a root, of the six types in turn, with limits that a dense day reaches now and then.
fn profile(rules: u64, tight: u64) -> String {
    const KINDS: [(&str, u64); 6] = [
        ("rate_vol", 900),
        ("rate_ntnl", 2_500),
        ("rate_count", 30),
        ("abs_vol", 4_000_000),
        ("abs_ntnl", 40_000_000),
        ("abs_count", 900_000),
    ];
    let line = |number: u64| {
        let (kind, limit) = KINDS[(number % 6) as usize];
        format!("ABCD,{kind},R{},{},{}\n", number / 4, (limit / tight).max(1), 1_000 + 250 * (number % 9))
    };
    (0..rules).map(line).collect()
}

/// An event, not before the clock but for one in a thousand.
fn event(dice: &mut Dice, ms: u64, roots: u64) -> Event {
    let ms = if dice.below(1_000) == 0 { ms.saturating_sub(5_000) } else { ms };
    let time = Time::from_ms(ms).unwrap_or(Time::LAST);
    let root = Root::new(dice.below(roots)).expect("below 64");
    match dice.below(100) {
        0 => Event::Lockout { time, level: Level::Root(root) },
        1..=9 => Event::Order { time, root, reset: if dice.below(2) == 0 { Reset::Symbol } else { Reset::None } },
        _ => Event::Offer(Offer {
            time,
            root,
            unit: UnitOfRoot::ALL[dice.below(4) as usize],
            premium: Premium::from_ten_thousandths(1 + dice.below(90_000)).expect("a premium"),
            contracts: Contracts::new(1 + dice.below(60)).expect("contracts"),
        }),
    }
}

/// Writes the files `profile` and `records` to a folder.
pub fn write(seed: u64, records: u64, (rules, tight): (u64, u64), folder: &Path) -> io::Result<()> {
    let mut dice = Dice(seed.wrapping_mul(0x9E37_79B9_7F4A_7C15) | 1);
    std::fs::write(folder.join("profile"), profile(rules, tight))?;
    let mut writer = Record16Writer::new(BufWriter::new(File::create(folder.join("records"))?));
    // from 09:30 to 16:00
    let (open, close) = (34_200_000, 57_600_000);
    for place in 0..records {
        writer.write(&event(&mut dice, open + (close - open) * place / records, rules.div_ceil(4)))?;
    }
    writer.finish()?.flush()
}

fn main() -> ExitCode {
    let words: Vec<String> = std::env::args().skip(1).collect();
    let number = |place: usize| words.get(place).and_then(|word| word.parse::<u64>().ok());
    let (Some(seed), Some(records @ 1..), Some(rules @ 1..=256), Some(folder)) = (number(0), number(1), number(2), words.get(3)) else {
        eprintln!("usage: big_day SEED RECORDS RULES FOLDER [TIGHT], with 1 to 256 rules");
        return ExitCode::from(2);
    };
    let tight = number(4).unwrap_or(1).max(1);
    match write(seed, records, (rules, tight), Path::new(folder)) {
        Ok(()) => ExitCode::SUCCESS,
        Err(error) => {
            eprintln!("the day cannot be written: {error}");
            ExitCode::FAILURE
        }
    }
}
