//! Scripts: one step a line, in plain text that can be run again.

mod calls;

use std::fmt;
use std::str::FromStr;

use second::event::Event;
use second::unit::Away;

/// What a step does: lends so many numbers, puts a number into the memory, the same for the account, or calls.
#[derive(Clone, Copy, Debug, PartialEq, Eq)]
pub enum Kind {
    Length,
    Damage,
    AccountLength,
    AccountDamage,
    Arm,
    Clear,
    Order,
    Lockout,
    Offer,
    Send,
    Report,
    Close,
    Remaining,
    Status,
    Text,
    Profile,
}

/// Each kind with its word and how many numbers follow it: the length; place and number; the same two of the account; none (Arm has a text instead); none; time, root and
/// reset; time, level and root; time, root, unit, premium and contracts; the same, identity and reports; time, identity and contracts; time and
/// identity; time, rule and unit; none; verdict and room; room.
const WORDS: [(&str, Kind, usize); 16] = [
    ("length", Kind::Length, 1),
    ("damage", Kind::Damage, 2),
    ("account-length", Kind::AccountLength, 1),
    ("account-damage", Kind::AccountDamage, 2),
    ("arm", Kind::Arm, 0),
    ("clear", Kind::Clear, 0),
    ("order", Kind::Order, 3),
    ("lockout", Kind::Lockout, 3),
    ("offer", Kind::Offer, 5),
    ("send", Kind::Send, 7),
    ("report", Kind::Report, 3),
    ("close", Kind::Close, 2),
    ("remaining", Kind::Remaining, 3),
    ("status", Kind::Status, 0),
    ("text", Kind::Text, 2),
    ("profile", Kind::Profile, 1),
];

/// The word before a call that keeps the account.
const ACCOUNTED: &str = "accounted ";

/// The most numbers that a kind has.
pub const MOST_NUMBERS: usize = 7;

/// The most bytes of room: as long as a profile may be.
const MOST_ROOM: u64 = 65_536;

/// One step of a script.
#[derive(Clone, Debug, PartialEq, Eq)]
pub struct Step {
    pub kind: Kind,
    /// Is it a call that keeps the account?
    pub accounted: bool,
    /// The kind's numbers in the order of its line, then zeros.
    pub numbers: [u64; MOST_NUMBERS],
    /// The profile of Arm, empty in the others.
    pub profile: Vec<u8>,
}

impl Step {
    /// A step with its numbers.
    pub fn new(kind: Kind, own: &[u64]) -> Step {
        let mut numbers = [0; MOST_NUMBERS];
        numbers[..own.len()].copy_from_slice(own);
        Step { kind, accounted: false, numbers, profile: Vec::new() }
    }

    /// A sending of an order.
    pub fn send(time: u64, order: Away) -> Step {
        let Away { identity, root, unit, premium, contracts, reports } = order;
        Step::new(Kind::Send, &[time, root, unit, premium, contracts, identity, reports])
    }

    /// Arm from a text.
    pub fn arm(profile: Vec<u8>) -> Step {
        Step { kind: Kind::Arm, accounted: false, numbers: [0; MOST_NUMBERS], profile }
    }

    /// Is it a call with a time, which is then its first number?
    pub fn has_time(&self) -> bool {
        let timeless = [Kind::Arm, Kind::Clear, Kind::Status, Kind::Text, Kind::Profile];
        self.is_call() && !timeless.contains(&self.kind)
    }

    /// Is it a call, and not a change of the memory from outside?
    pub fn is_call(&self) -> bool {
        !matches!(self.kind, Kind::Length | Kind::Damage | Kind::AccountLength | Kind::AccountDamage)
    }

    /// Is it a call that changes nothing?
    pub fn asks(&self) -> bool {
        matches!(self.kind, Kind::Remaining | Kind::Status | Kind::Text | Kind::Profile)
    }

    /// The call that keeps the account, of an event; others as they are.
    pub fn accounted(mut self) -> Step {
        self.accounted = self.event().is_some();
        self
    }

    /// The event of a call that an account may be kept of.
    pub fn event(&self) -> Option<Event> {
        let [time, b, c, d, e, ..] = self.numbers;
        match self.kind {
            Kind::Order => Some(Event::Order { time, root: b, reset: c }),
            Kind::Lockout => Some(Event::Lockout { time, level: b, root: c }),
            Kind::Offer => Some(Event::Offer { time, root: b, unit: c, premium: d, contracts: e }),
            Kind::Send => Some(Event::Send { time, order: self.order() }),
            Kind::Report => Some(Event::Report { time, identity: b, contracts: c }),
            Kind::Close => Some(Event::Close { time, identity: b }),
            _ => None,
        }
    }

    /// A room as the call is lent one, no two neighbours of its bytes alike; empty for a call that writes no text.
    pub fn room(&self) -> Vec<u8> {
        let bytes = match self.kind {
            Kind::Text => self.numbers[1],
            Kind::Profile => self.numbers[0],
            _ => 0,
        };
        (0..bytes.min(MOST_ROOM)).map(|place| place as u8 ^ 0xA5).collect()
    }

    /// The order that a sending sends.
    pub fn order(&self) -> Away {
        let [_, root, unit, premium, contracts, identity, reports] = self.numbers;
        Away { identity, root, unit, premium, contracts, reports }
    }

    /// The kind's own numbers.
    pub fn own(&self) -> &[u64] {
        &self.numbers[..word(self.kind).1]
    }
}

/// A kind's word and how many numbers follow it.
fn word(kind: Kind) -> (&'static str, usize) {
    let (word, _, numbers) = WORDS[kind as usize];
    (word, numbers)
}

impl fmt::Display for Step {
    fn fmt(&self, f: &mut fmt::Formatter) -> fmt::Result {
        write!(f, "{}{}", if self.accounted { ACCOUNTED } else { "" }, word(self.kind).0)?;
        if !self.profile.is_empty() {
            write!(f, " {}", self.profile.escape_ascii())?;
        }
        self.own().iter().try_for_each(|number| write!(f, " {number}"))
    }
}

impl FromStr for Step {
    type Err = String;

    fn from_str(line: &str) -> Result<Step, String> {
        let bad = || format!("no step: {line}");
        if let Some(plain) = line.strip_prefix(ACCOUNTED) {
            let step = plain.parse::<Step>()?.accounted();
            return if step.accounted { Ok(step) } else { Err(bad()) };
        }
        let (first, rest) = line.split_once(' ').unwrap_or((line, ""));
        let (_, kind, count) = *WORDS.iter().find(|(word, _, _)| *word == first).ok_or_else(bad)?;
        if kind == Kind::Arm {
            return unescaped(rest).map(Step::arm).ok_or_else(bad);
        }
        let own = rest.split_whitespace().map(str::parse).collect::<Result<Vec<u64>, _>>().map_err(|_| bad())?;
        if own.len() != count {
            return Err(bad());
        }
        Ok(Step::new(kind, &own))
    }
}

/// The bytes of a text in which some are written as `\n`, `\x00` and so on.
fn unescaped(text: &str) -> Option<Vec<u8>> {
    let mut bytes = Vec::new();
    let mut left = text.bytes();
    while let Some(byte) = left.next() {
        bytes.push(match byte {
            b'\\' => match left.next()? {
                b'n' => b'\n',
                b'r' => b'\r',
                b't' => b'\t',
                b'x' => 16 * hex_digit(left.next()?)? + hex_digit(left.next()?)?,
                other => other,
            },
            plain => plain,
        });
    }
    Some(bytes)
}

/// The value of a digit to base 16.
fn hex_digit(digit: u8) -> Option<u8> {
    char::from(digit).to_digit(16).map(|value| value as u8)
}

/// A script as text, one step a line.
pub fn print(script: &[Step]) -> String {
    script.iter().map(|step| format!("{step}\n")).collect()
}

/// The script of a text; empty lines and those that begin with # mean nothing.
pub fn parse(text: &str) -> Result<Vec<Step>, String> {
    let lines = text.split('\n').filter(|line| !line.is_empty() && !line.starts_with('#'));
    lines.map(str::parse).collect()
}
