//! The day's account: for each root, and for the firm, what an evening's table shows.

use crate::raw::ACCOUNT_SIZE;
use crate::values::Root;
use core::fmt;

/// A column of an account.
#[derive(Clone, Copy, Debug, PartialEq, Eq, Hash, PartialOrd, Ord)]
#[repr(u8)]
pub enum Column {
    /// 0: orders and sendings that passed.
    Accepted = 0,
    /// 1: orders and sendings that were rejected, since something was locked.
    Rejected = 1,
    /// 2: offers that were granted something.
    Fills = 2,
    /// 3: the contracts granted.
    Contracts = 3,
    /// 4: premium times contracts of what was granted, in ten-thousandths of a dollar.
    Notional = 4,
    /// 5: offers that were not locked out and were granted less than was offered.
    Cuts = 5,
    /// 6: of a root how often it tripped, of the firm how often that did.
    Trips = 6,
    /// 7: reports of orders sent away, which are counted here and as trips alone.
    AwayReports = 7,
}

impl Column {
    /// The eight, by number.
    pub const ALL: [Column; 8] = [
        Column::Accepted,
        Column::Rejected,
        Column::Fills,
        Column::Contracts,
        Column::Notional,
        Column::Cuts,
        Column::Trips,
        Column::AwayReports,
    ];

    /// Its number.
    pub const fn number(self) -> u64 {
        self as u64
    }

    /// What it has, in words.
    pub const fn text(self) -> &'static str {
        match self {
            Column::Accepted => "accepted orders",
            Column::Rejected => "rejected orders",
            Column::Fills => "fills",
            Column::Contracts => "contracts",
            Column::Notional => "notional",
            Column::Cuts => "cuts",
            Column::Trips => "trips",
            Column::AwayReports => "away reports",
        }
    }
}

impl fmt::Display for Column {
    fn fmt(&self, f: &mut fmt::Formatter<'_>) -> fmt::Result {
        f.pad(self.text())
    }
}

/// A row of an account: the eight figures of a root, or of the firm.
#[derive(Clone, Copy, Debug, Default, PartialEq, Eq, Hash)]
pub struct Figures([u64; 8]);

impl Figures {
    /// The figure of a column.
    pub const fn of(&self, column: Column) -> u64 {
        self.0[column as usize]
    }

    /// All eight, by column.
    pub const fn numbers(&self) -> [u64; 8] {
        self.0
    }
}

/// An account, begun at zeros. The accounted calls of a [`Unit`](crate::Unit) count in it what they do not refuse; it knows nothing of the unit, and is
/// handed on where a unit is armed again. A call that would bring a figure past 10^18 is refused with
/// [`Refusal::AccountFull`](crate::Refusal::AccountFull), and nothing is applied.
///
/// ```
/// use mbrumzheg::{Account, Column, Contracts, Offer, Premium, Reset, Time, Unit, UnitOfRoot};
///
/// let mut unit = Unit::new().arm("ABCD,abs_vol,XYZ,1000").map_err(|refused| refused.why)?;
/// let (root, mut account) = (unit.root_named("XYZ").ok_or("the profile has it")?, Account::new());
/// let (time, premium) = (Time::START, Premium::from_ten_thousandths(70_000)?);
/// let offer = Offer { time, root, unit: UnitOfRoot::CallsFront, premium, contracts: Contracts::new(1_200)? };
/// let _ = unit.accounted_offer(&mut account, offer)?;
/// let _ = unit.accounted_order(&mut account, time, root, Reset::None)?;
///
/// assert_eq!(account.root(root).numbers(), [0, 1, 1, 1_000, 70_000_000, 1, 1, 0]);
/// assert_eq!(account.firm().of(Column::Contracts), 1_000);
/// # Ok::<(), Box<dyn std::error::Error>>(())
/// ```
#[derive(Clone, Debug, PartialEq, Eq)]
pub struct Account {
    numbers: [u64; ACCOUNT_SIZE],
}

const COLUMNS: usize = 8;
const FIRM: usize = ACCOUNT_SIZE / COLUMNS - 1;

impl Account {
    /// An account of zeros.
    pub const fn new() -> Account {
        Account { numbers: [0; ACCOUNT_SIZE] }
    }

    /// An account that goes on from numbers, as [`numbers`](Account::numbers) had them. A figure above 10^18 is refused by the next call, with
    /// [`Refusal::Unsound`](crate::Refusal::Unsound).
    pub const fn from_numbers(numbers: [u64; ACCOUNT_SIZE]) -> Account {
        Account { numbers }
    }

    /// The numbers: row after row, the roots' and then the firm's.
    pub const fn numbers(&self) -> &[u64; ACCOUNT_SIZE] {
        &self.numbers
    }

    pub(crate) fn numbers_mut(&mut self) -> &mut [u64] {
        &mut self.numbers
    }

    fn row(&self, row: usize) -> Figures {
        let mut figures = [0; COLUMNS];
        figures.copy_from_slice(&self.numbers[row * COLUMNS..(row + 1) * COLUMNS]);
        Figures(figures)
    }

    /// The figures of a root.
    pub fn root(&self, root: Root) -> Figures {
        self.row(root.number() as usize)
    }

    /// The figures of the firm.
    pub fn firm(&self) -> Figures {
        self.row(FIRM)
    }

    /// All rows: the 64 roots' by number, then the firm's, which has no root.
    pub fn table(&self) -> impl Iterator<Item = (Option<Root>, Figures)> + '_ {
        (0..=FIRM).map(|row| (Root::new(row as u64).ok(), self.row(row)))
    }
}

impl Default for Account {
    fn default() -> Account {
        Account::new()
    }
}
