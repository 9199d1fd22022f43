//! The numbers that calls take and answer, each with a type and a range of its own.

use crate::raw;
use crate::refusal::Refusal;
use core::fmt;
use core::ops::Deref;

/// The number of a root, 0 to 63, in order of first appearance in the profile.
#[derive(Clone, Copy, Debug, PartialEq, Eq, Hash, PartialOrd, Ord)]
pub struct Root(u8);

impl Root {
    /// A root by its number; [`Refusal::Unknown`] above 63. Whether the profile has that root, the call tells.
    pub fn new(number: u64) -> Result<Root, Refusal> {
        in_range(number, 0, 63, Refusal::Unknown).map(|n| Root(n as u8))
    }

    /// Its number.
    pub const fn number(self) -> u64 {
        self.0 as u64
    }
}

/// One of the four units of a root.
#[derive(Clone, Copy, Debug, PartialEq, Eq, Hash, PartialOrd, Ord)]
#[repr(u8)]
pub enum UnitOfRoot {
    /// 0: calls of the front two months.
    CallsFront = 0,
    /// 1: calls of trailing months.
    CallsTrailing = 1,
    /// 2: puts of the front two months.
    PutsFront = 2,
    /// 3: puts of trailing months.
    PutsTrailing = 3,
}

impl UnitOfRoot {
    /// The four, by number.
    pub const ALL: [UnitOfRoot; 4] = [UnitOfRoot::CallsFront, UnitOfRoot::CallsTrailing, UnitOfRoot::PutsFront, UnitOfRoot::PutsTrailing];

    /// A unit by its number; [`Refusal::Unknown`] above 3.
    pub fn from_number(number: u64) -> Result<UnitOfRoot, Refusal> {
        by_number(&UnitOfRoot::ALL, number)
    }

    /// Its number.
    pub const fn number(self) -> u64 {
        self as u64
    }
}

/// A premium in ten-thousandths of a dollar, 1 to 100,000,000.
#[derive(Clone, Copy, Debug, PartialEq, Eq, Hash, PartialOrd, Ord)]
pub struct Premium(u32);

impl Premium {
    /// A premium from ten-thousandths of a dollar; [`Refusal::BadAmount`] outside the range.
    pub fn from_ten_thousandths(n: u64) -> Result<Premium, Refusal> {
        in_range(n, 1, 100_000_000, Refusal::BadAmount).map(Premium)
    }

    /// The ten-thousandths of a dollar.
    pub const fn ten_thousandths(self) -> u64 {
        self.0 as u64
    }
}

/// A number of contracts, 1 to 1,000,000.
#[derive(Clone, Copy, Debug, PartialEq, Eq, Hash, PartialOrd, Ord)]
pub struct Contracts(u32);

impl Contracts {
    /// So many contracts; [`Refusal::BadAmount`] outside the range.
    pub fn new(n: u64) -> Result<Contracts, Refusal> {
        in_range(n, 1, 1_000_000, Refusal::BadAmount).map(Contracts)
    }

    /// How many.
    pub const fn count(self) -> u64 {
        self.0 as u64
    }
}

/// What an order resets before it is judged.
#[derive(Clone, Copy, Debug, Default, PartialEq, Eq, Hash, PartialOrd, Ord)]
#[repr(u8)]
pub enum Reset {
    /// 0: nothing.
    #[default]
    None = 0,
    /// 1: the order's root.
    Symbol = 1,
    /// 2: the firm; roots stay as they are.
    Firm = 2,
    /// 3: the order's root and the firm.
    Both = 3,
    /// 4: lifts the trip and the lockout of the order's root, and forgets nothing that was counted.
    T = 4,
    /// 5: the same of the firm; roots stay as they are.
    E = 5,
    /// 6: T and E.
    TE = 6,
}

impl Reset {
    /// The seven, by number.
    pub const ALL: [Reset; 7] = [Reset::None, Reset::Symbol, Reset::Firm, Reset::Both, Reset::T, Reset::E, Reset::TE];

    /// A reset by its number; [`Refusal::Unknown`] above 6.
    pub fn from_number(number: u64) -> Result<Reset, Refusal> {
        by_number(&Reset::ALL, number)
    }

    /// Its number.
    pub const fn number(self) -> u64 {
        self as u64
    }
}

/// What a lockout locks.
#[derive(Clone, Copy, Debug, PartialEq, Eq, Hash, PartialOrd, Ord)]
pub enum Level {
    /// 0: one root.
    Root(Root),
    /// 1: the whole firm.
    Firm,
}

impl Level {
    /// Its number, 0 or 1.
    pub const fn number(self) -> u64 {
        match self {
            Level::Root(_) => 0,
            Level::Firm => 1,
        }
    }

    /// The root number that goes with it: 0 for the firm.
    pub const fn root_number(self) -> u64 {
        match self {
            Level::Root(root) => root.number(),
            Level::Firm => 0,
        }
    }
}

/// How an order or an offer was judged.
#[derive(Clone, Copy, Debug, PartialEq, Eq, Hash, PartialOrd, Ord)]
#[repr(u8)]
#[must_use = "an order whose verdict is not looked at has not been checked"]
pub enum Verdict {
    /// 0: nothing is locked, so it may pass.
    Free = 0,
    /// 1: the firm is locked.
    FirmLocked = 1,
    /// 2: the root is locked.
    RootLocked = 2,
}

impl Verdict {
    /// A verdict by its number; [`Refusal::Unknown`] above 2.
    pub fn from_number(number: u64) -> Result<Verdict, Refusal> {
        by_number(&[Verdict::Free, Verdict::FirmLocked, Verdict::RootLocked], number)
    }

    /// Its number.
    pub const fn number(self) -> u64 {
        self as u64
    }

    /// Whether the order or offer may pass.
    pub const fn passes(self) -> bool {
        matches!(self, Verdict::Free)
    }

    /// The text of a rejection, as the library writes it; none for a pass.
    ///
    /// ```
    /// use mbrumzheg::Verdict;
    /// assert_eq!(&*Verdict::FirmLocked.text().unwrap(), "f: RiskMgmtFirmLevel");
    /// assert_eq!(&*Verdict::RootLocked.text().unwrap(), "s: RiskMgmtSymLevel");
    /// assert!(Verdict::Free.text().is_none());
    /// ```
    pub fn text(self) -> Option<VerdictText> {
        let mut room = [0; 20];
        let [refusal, written, ..] = raw::text(self.number(), &mut room);
        (refusal == 0).then_some(VerdictText { room, written: written as usize })
    }
}

/// The text of a rejection; it reads as a `str`.
#[derive(Clone, Copy, Debug, PartialEq, Eq)]
pub struct VerdictText {
    room: [u8; 20],
    written: usize,
}

impl Deref for VerdictText {
    type Target = str;
    fn deref(&self) -> &str {
        self.room.get(..self.written).and_then(|bytes| core::str::from_utf8(bytes).ok()).unwrap_or_default()
    }
}

impl fmt::Display for VerdictText {
    fn fmt(&self, f: &mut fmt::Formatter<'_>) -> fmt::Result {
        f.pad(self)
    }
}

/// A number within a range, or the refusal that its type gives.
pub(crate) fn in_range(n: u64, least: u64, most: u64, otherwise: Refusal) -> Result<u32, Refusal> {
    if n < least || n > most {
        return Err(otherwise);
    }
    u32::try_from(n).map_err(|_| otherwise)
}

/// The case that a number stands for.
fn by_number<T: Copy>(all: &[T], number: u64) -> Result<T, Refusal> {
    usize::try_from(number).ok().and_then(|n| all.get(n)).copied().ok_or(Refusal::Unknown)
}
