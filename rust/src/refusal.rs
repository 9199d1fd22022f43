//! Why a call was refused.

use core::error::Error;
use core::fmt;

/// A refusal: its number from 1 to 21, a name and a sentence. A refused call changes nothing in the lent memory.
///
/// ```
/// use mbrumzheg::Refusal;
/// let refusal = Refusal::from_number(15).unwrap();
/// assert_eq!(refusal, Refusal::LogFull);
/// assert_eq!(refusal.to_string(), "refused with 15: fills inside the longest window and places kept for reports leave too few of the log's 512 places");
/// ```
#[derive(Clone, Copy, Debug, PartialEq, Eq, Hash, PartialOrd, Ord)]
#[non_exhaustive]
#[repr(u8)]
pub enum Refusal {
    /// 1: the memory, the account, or the room for a text, is too short.
    NoRoom = 1,
    /// 2: the memory is marked, yet holds no sound state, or a figure of the account is above 10^18.
    Unsound = 2,
    /// 3: arming memory whose mark is not 0.
    ArmedAlready = 3,
    /// 4: a call on memory that is not armed.
    NotArmed = 4,
    /// 5: the profile is empty or longer than 65,536 bytes.
    ProfileLength = 5,
    /// 6: a line is malformed.
    Malformed = 6,
    /// 7: a line names another firm than the first.
    OtherFirm = 7,
    /// 8: a limit or a window is out of range.
    OutOfRange = 8,
    /// 9: root and firm level clash.
    LevelClash = 9,
    /// 10: the unit fields clash.
    UnitClash = 10,
    /// 11: one rule or root too many.
    TooMany = 11,
    /// 12: the time is no time of the day, or below the clock.
    BadTime = 12,
    /// 13: a number that the profile or the library does not know.
    Unknown = 13,
    /// 14: premium, contracts or reports out of range.
    BadAmount = 14,
    /// 15: the log is full.
    LogFull = 15,
    /// 16: an event record is faulty.
    FaultyRecord = 16,
    /// 17: the register of orders sent away is full.
    RegisterFull = 17,
    /// 18: an order of that identity is open already or, for a report or a closing, is not open.
    IdentityClash = 18,
    /// 19: more contracts than are open, or no report left.
    OverReported = 19,
    /// 20: a record that does not fit the old form.
    Unfit = 20,
    /// 21: a figure of the account would pass 10^18.
    AccountFull = 21,
}

impl Refusal {
    /// Every refusal, by number.
    pub const ALL: [Refusal; 21] = [
        Refusal::NoRoom,
        Refusal::Unsound,
        Refusal::ArmedAlready,
        Refusal::NotArmed,
        Refusal::ProfileLength,
        Refusal::Malformed,
        Refusal::OtherFirm,
        Refusal::OutOfRange,
        Refusal::LevelClash,
        Refusal::UnitClash,
        Refusal::TooMany,
        Refusal::BadTime,
        Refusal::Unknown,
        Refusal::BadAmount,
        Refusal::LogFull,
        Refusal::FaultyRecord,
        Refusal::RegisterFull,
        Refusal::IdentityClash,
        Refusal::OverReported,
        Refusal::Unfit,
        Refusal::AccountFull,
    ];

    /// The refusal of a number from 1 to 21.
    pub fn from_number(number: u64) -> Option<Refusal> {
        let place = usize::try_from(number.checked_sub(1)?).ok()?;
        Refusal::ALL.get(place).copied()
    }

    /// The number, 1 to 21.
    pub const fn number(self) -> u64 {
        self as u64
    }

    /// A short name.
    pub const fn name(self) -> &'static str {
        match self {
            Refusal::NoRoom => "memory short",
            Refusal::Unsound => "state not sound",
            Refusal::ArmedAlready => "armed already",
            Refusal::NotArmed => "not armed",
            Refusal::ProfileLength => "profile length",
            Refusal::Malformed => "line malformed",
            Refusal::OtherFirm => "firm differs",
            Refusal::OutOfRange => "limit out of range",
            Refusal::LevelClash => "root and firm level clash",
            Refusal::UnitClash => "unit fields clash",
            Refusal::TooMany => "too many",
            Refusal::BadTime => "time out of order",
            Refusal::Unknown => "not known",
            Refusal::BadAmount => "amount out of range",
            Refusal::LogFull => "log full",
            Refusal::FaultyRecord => "record faulty",
            Refusal::RegisterFull => "register full",
            Refusal::IdentityClash => "identity open or not",
            Refusal::OverReported => "more than is open",
            Refusal::Unfit => "does not fit the old form",
            Refusal::AccountFull => "account full",
        }
    }

    /// What it means, in a sentence without its first capital and full stop.
    pub const fn sentence(self) -> &'static str {
        match self {
            Refusal::NoRoom => {
                "the lent memory has fewer than 2,763 numbers, the account fewer than 520, or the room is shorter than the call asks for"
            }
            Refusal::Unsound => "the memory is marked, but what stands in it is no sound state, or a figure of the account is above 10^18",
            Refusal::ArmedAlready => "the memory's armed mark is not 0, so clear it before arming",
            Refusal::NotArmed => "the memory is not armed, so no rule stands behind this call",
            Refusal::ProfileLength => "the profile is empty or longer than 65,536 bytes",
            Refusal::Malformed => "the line has too few or too many fields, a field of wrong length or characters, or an unknown type",
            Refusal::OtherFirm => "the line names another firm than the first line does",
            Refusal::OutOfRange => "the line's limit or time limit is out of range",
            Refusal::LevelClash => "the line has a root and also T for the firm, or neither",
            Refusal::UnitClash => "the line sets one of call/put and month without the other, or sets them in a firm rule",
            Refusal::TooMany => "the line is one rule or one root more than a profile may have",
            Refusal::BadTime => "the time is no time of the day, or earlier than the unit's clock",
            Refusal::Unknown => "the root, unit, rule, level, reset, verdict or identity is not known here",
            Refusal::BadAmount => {
                "the premium is not within $0.0001 to $10,000, the contracts not within 1 to 1,000,000, or the reports not within 1 to 16"
            }
            Refusal::LogFull => "fills inside the longest window and places kept for reports leave too few of the log's 512 places",
            Refusal::FaultyRecord => {
                "the event record is not 16 bytes (12 in the old form), or a field in it is out of range or not 0 where it must be"
            }
            Refusal::RegisterFull => "64 orders sent away are open, so the register has no place for another",
            Refusal::IdentityClash => "an order of this identity is open already or, for a report or a closing, none is",
            Refusal::OverReported => "the report has more contracts than are open, or the order has no report left",
            Refusal::Unfit => {
                "the record does not fit the old form: its kind is above 2, its time not in whole milliseconds, or its reset above 3"
            }
            Refusal::AccountFull => "a figure of the account would pass 10^18, so the event was not applied",
        }
    }
}

impl fmt::Display for Refusal {
    fn fmt(&self, f: &mut fmt::Formatter<'_>) -> fmt::Result {
        write!(f, "refused with {}: {}", self.number(), self.sentence())
    }
}

impl Error for Refusal {}
