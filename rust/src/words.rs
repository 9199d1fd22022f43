//! Values as text, and from text: what `Display` writes, `FromStr` reads.
//!
//! ```
//! use mbrumzheg::{Contracts, Identity, Level, Premium, Reports, Reset, Root, Time, UnitOfRoot, Verdict};
//! assert_eq!("09:30".parse::<Time>()?.to_string(), "09:30:00.000");
//! assert_eq!("09:30:00.5001".parse::<Time>()?.to_string(), "09:30:00.500100");
//! assert_eq!("$7.5".parse::<Premium>()?.to_string(), "7.50");
//! assert_eq!("200".parse::<Contracts>()?.to_string(), "200");
//! assert_eq!("63".parse::<Root>()?.to_string(), "63");
//! assert_eq!("65535".parse::<Identity>()?.to_string(), "65535");
//! assert_eq!("16".parse::<Reports>()?.to_string(), "16");
//! assert_eq!("call front".parse::<UnitOfRoot>()?, UnitOfRoot::CallsFront);
//! assert_eq!("both".parse::<Reset>()?, Reset::Both);
//! assert_eq!("root 3".parse::<Level>()?, Level::Root(Root::new(3)?));
//! assert_eq!(Verdict::RootLocked.to_string(), "root locked");
//! # Ok::<(), Box<dyn std::error::Error>>(())
//! ```

use crate::away::{Identity, Reports};
use crate::refusal::Refusal;
use crate::time::Time;
use crate::values::{Contracts, Level, Premium, Reset, Root, UnitOfRoot, Verdict};
use core::error::Error;
use core::fmt::{self, Write};
use core::str::FromStr;

/// A text that is no value of the type that it was read for. If its form is right and it is out of range, the refusal is the source.
///
/// ```
/// use mbrumzheg::{Premium, Refusal};
/// use std::error::Error;
/// let wrong = "10000.01".parse::<Premium>().unwrap_err();
/// assert_eq!(wrong.to_string(), "no premium: it is written in dollars with at most four places, like 7.00, and is 0.0001 to 10000.00");
/// assert_eq!(wrong.source().and_then(|why| why.downcast_ref()), Some(&Refusal::BadAmount));
/// ```
#[derive(Clone, Copy, Debug, PartialEq, Eq, Hash)]
pub struct ParseError {
    wanted: &'static str,
    out_of_range: Option<Refusal>,
}

impl ParseError {
    const fn new(wanted: &'static str) -> ParseError {
        ParseError { wanted, out_of_range: None }
    }
}

impl fmt::Display for ParseError {
    fn fmt(&self, f: &mut fmt::Formatter<'_>) -> fmt::Result {
        write!(f, "no {}", self.wanted)
    }
}

impl Error for ParseError {
    /// The refusal of a number that is out of range.
    fn source(&self) -> Option<&(dyn Error + 'static)> {
        self.out_of_range.as_ref().map(|refusal| refusal as &dyn Error)
    }
}

/// The value of a number that a text gave, or what was wanted.
fn value<T>(number: Option<u64>, of: impl FnOnce(u64) -> Result<T, Refusal>, wanted: &'static str) -> Result<T, ParseError> {
    let number = number.ok_or(ParseError::new(wanted))?;
    of(number).map_err(|refusal| ParseError { wanted, out_of_range: Some(refusal) })
}

/// Digits alone, at most so many.
fn digits(text: &str, most: usize) -> Option<u64> {
    let good = text.len() <= most && text.bytes().all(|byte| byte.is_ascii_digit());
    good.then(|| text.parse().ok()).flatten()
}

/// Digits with at most so many after a point, as a number of the last of these places.
fn decimal(text: &str, most: usize, places: usize) -> Option<u64> {
    let (whole, part) = match text.split_once('.') {
        Some((whole, part)) => (whole, Some(part)),
        None => (text, None),
    };
    let scale = |missing: usize| 10u64.pow(missing as u32);
    let last = match part {
        Some(part) => digits(part, places)? * scale(places - part.len()),
        None => 0,
    };
    Some(digits(whole, most)? * scale(places) + last)
}

/// A short text, put together without an allocator so that it can be padded as one.
#[derive(Default)]
struct Short {
    bytes: [u8; 16],
    len: usize,
}

impl Write for Short {
    fn write_str(&mut self, text: &str) -> fmt::Result {
        let room = self.bytes.get_mut(self.len..self.len + text.len()).ok_or(fmt::Error)?;
        room.copy_from_slice(text.as_bytes());
        self.len += text.len();
        Ok(())
    }
}

/// Writes a text of at most 16 bytes with the width and fill that were asked for.
fn padded(f: &mut fmt::Formatter<'_>, text: fmt::Arguments<'_>) -> fmt::Result {
    let mut short = Short::default();
    short.write_fmt(text)?;
    f.pad(core::str::from_utf8(&short.bytes[..short.len]).unwrap_or_default())
}

impl fmt::Display for Time {
    fn fmt(&self, f: &mut fmt::Formatter<'_>) -> fmt::Result {
        let ms = self.ms();
        let (hours, minutes, seconds) = (ms / 3_600_000, ms / 60_000 % 60, ms / 1_000 % 60);
        match self.micros() {
            0 => padded(f, format_args!("{hours:02}:{minutes:02}:{seconds:02}.{:03}", ms % 1_000)),
            _ => padded(f, format_args!("{hours:02}:{minutes:02}:{seconds:02}.{:06}", self.us() % 1_000_000)),
        }
    }
}

impl FromStr for Time {
    type Err = ParseError;

    fn from_str(text: &str) -> Result<Time, ParseError> {
        let wanted = "time: it is written 09:30, 09:30:00, 09:30:00.250 or 09:30:00.250125, and is 00:00 to 23:59:59.999999";
        value(clock_face(text), Time::from_us, wanted)
    }
}

/// The microseconds of hours and minutes, seconds if they are there, and parts of a second.
fn clock_face(text: &str) -> Option<u64> {
    let (hours, rest) = text.split_once(':')?;
    let (minutes, seconds) = rest.split_once(':').unwrap_or((rest, "0"));
    let (minutes, us) = (digits(minutes, 2)?, decimal(seconds, 2, 6)?);
    (minutes < 60 && us < 60_000_000).then_some(digits(hours, 2)? * 3_600_000_000 + minutes * 60_000_000 + us)
}

impl fmt::Display for Premium {
    fn fmt(&self, f: &mut fmt::Formatter<'_>) -> fmt::Result {
        let (whole, part) = (self.ten_thousandths() / 10_000, self.ten_thousandths() % 10_000);
        match part % 100 {
            0 => padded(f, format_args!("{whole}.{:02}", part / 100)),
            _ => padded(f, format_args!("{whole}.{part:04}")),
        }
    }
}

impl FromStr for Premium {
    type Err = ParseError;

    fn from_str(text: &str) -> Result<Premium, ParseError> {
        let wanted = "premium: it is written in dollars with at most four places, like 7.00, and is 0.0001 to 10000.00";
        value(decimal(text.strip_prefix('$').unwrap_or(text), 12, 4), Premium::from_ten_thousandths, wanted)
    }
}

/// Writes and reads a type by the digits of its number.
macro_rules! by_digits {
    ($name:ident, $number:ident, $wanted:literal) => {
        impl fmt::Display for $name {
            fn fmt(&self, f: &mut fmt::Formatter<'_>) -> fmt::Result {
                self.$number().fmt(f)
            }
        }

        impl FromStr for $name {
            type Err = ParseError;

            fn from_str(text: &str) -> Result<$name, ParseError> {
                value(digits(text, 12), $name::new, $wanted)
            }
        }
    };
}
by_digits!(Contracts, count, "number of contracts: it is 1 to 1000000");
by_digits!(Root, number, "root number: it is 0 to 63");
by_digits!(Identity, number, "identity: it is 0 to 65535");
by_digits!(Reports, count, "number of reports: it is 1 to 16");

impl fmt::Display for Level {
    fn fmt(&self, f: &mut fmt::Formatter<'_>) -> fmt::Result {
        match self {
            Level::Root(root) => padded(f, format_args!("root {root}")),
            Level::Firm => f.pad("firm"),
        }
    }
}

impl FromStr for Level {
    type Err = ParseError;

    fn from_str(text: &str) -> Result<Level, ParseError> {
        let wanted = "level: it is firm, or root with a number, 0 to 63";
        match text.strip_prefix("root ") {
            Some(number) => value(digits(number, 12), Root::new, wanted).map(Level::Root),
            None if text == "firm" => Ok(Level::Firm),
            None => Err(ParseError::new(wanted)),
        }
    }
}

/// Gives the cases of a type their words.
macro_rules! words {
    ($name:ident, $wanted:literal, $($case:ident $word:literal),+) => {
        impl fmt::Display for $name {
            fn fmt(&self, f: &mut fmt::Formatter<'_>) -> fmt::Result {
                f.pad(match self {
                    $($name::$case => $word,)+
                })
            }
        }

        impl FromStr for $name {
            type Err = ParseError;

            fn from_str(text: &str) -> Result<$name, ParseError> {
                match text {
                    $($word => Ok($name::$case),)+
                    _ => Err(ParseError::new($wanted)),
                }
            }
        }
    };
}
words!(
    UnitOfRoot, "unit of a root: it is call front, call trailing, put front or put trailing",
    CallsFront "call front", CallsTrailing "call trailing", PutsFront "put front", PutsTrailing "put trailing"
);
words!(
    Reset, "reset: it is none, symbol, firm, both, t, e or te",
    None "none", Symbol "symbol", Firm "firm", Both "both", T "t", E "e", TE "te"
);
words!(Verdict, "verdict: it is free, firm locked or root locked", Free "free", FirmLocked "firm locked", RootLocked "root locked");
