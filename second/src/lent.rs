//! The second unit over lent numbers: refusals 1 and 2, and what each call should leave in the memory and the account.

use crate::account::{self, Account};
use crate::accounted;
use crate::event::Event;
use crate::memory::{self, Held};
use crate::place::{MARK, NUMBERS};
use crate::unit::Unit;

/// The row of an answer: the refusal first, then the answers, and 0 where there are fewer than four.
pub type Row = [u64; 5];

/// Numbers as the calls should leave them, and the unit that they stand for.
#[derive(Clone, Debug)]
pub struct Lent {
    /// All numbers that are there, lent or not.
    numbers: Vec<u64>,
    /// How many of them are lent to a call.
    length: usize,
    /// The unit; it is not armed where the numbers are not those of a sound state.
    unit: Unit,
    /// Is the mark not 0 and the state not sound?
    unsound: bool,
    /// Were numbers changed from outside since the unit was read from them?
    changed: bool,
}

impl Lent {
    /// Numbers whose mark is 0, all of them lent.
    pub fn new(numbers: Vec<u64>) -> Lent {
        assert!(numbers.len() >= NUMBERS && numbers[MARK] == 0, "room for a state, and the mark 0");
        Lent { length: numbers.len(), numbers, unit: Unit::new(), unsound: false, changed: false }
    }

    /// All numbers, lent or not.
    pub fn numbers(&self) -> &[u64] {
        &self.numbers
    }

    /// All numbers, to be changed from outside.
    pub fn numbers_mut(&mut self) -> &mut Vec<u64> {
        self.changed = true;
        &mut self.numbers
    }

    /// Lends so many numbers from now on.
    pub fn set_length(&mut self, length: usize) {
        assert!(length <= self.numbers.len());
        self.length = length;
    }

    /// How many numbers are lent.
    pub fn length(&self) -> usize {
        self.length
    }

    /// The unit that the numbers stand for, not armed if they stand for none.
    pub fn unit(&mut self) -> &mut Unit {
        self.look();
        &mut self.unit
    }

    /// Is the mark not 0 and the state not sound?
    pub fn is_unsound(&mut self) -> bool {
        self.look();
        self.unsound
    }

    /// Arm: 1 and 3, then what the text gives.
    pub fn arm(&mut self, text: &[u8]) -> Row {
        if self.length < NUMBERS {
            return refused(1);
        }
        if self.numbers[MARK] != 0 {
            return refused(3);
        }
        self.look();
        let row = self.unit.arm(text).numbers();
        self.keep(row)
    }

    /// Clear: 1 alone, then zeros whatever the numbers were.
    pub fn clear(&mut self) -> Row {
        if self.length < NUMBERS {
            return refused(1);
        }
        self.numbers[..NUMBERS].fill(0);
        (self.unit, self.unsound, self.changed) = (Unit::new(), false, false);
        refused(0)
    }

    /// A call that may change the state, by its row.
    pub fn change(&mut self, call: impl FnOnce(&mut Unit) -> Row) -> Row {
        match self.refusal() {
            0 => {
                let row = call(&mut self.unit);
                self.keep(row)
            }
            refusal => refused(refusal),
        }
    }

    /// A call that changes no state, by its row.
    pub fn ask(&mut self, call: impl FnOnce(&Unit) -> Row) -> Row {
        match self.refusal() {
            0 => call(&self.unit),
            refusal => refused(refusal),
        }
    }

    /// An event over these numbers and those of an account, which may be short or have figures above the most.
    pub fn accounted(&mut self, account: &mut [u64], event: Event) -> Row {
        if account.len() < account::NUMBERS {
            return refused(1);
        }
        let refusal = self.refusal();
        if refusal != 0 {
            return refused(refusal);
        }
        let Some(kept) = Account::read(account) else { return refused(2) };
        let row = accounted::run(&mut self.unit, kept, account, event);
        self.keep(row)
    }

    /// The refusals that the memory decides, in their order: 1, 4, 2; 0 for none.
    fn refusal(&mut self) -> u64 {
        if self.length < NUMBERS {
            return 1;
        }
        self.look();
        match (self.numbers[MARK], self.unsound) {
            (0, _) => 4,
            (_, true) => 2,
            _ => 0,
        }
    }

    /// Reads the unit from numbers that were changed from outside.
    fn look(&mut self) {
        if !std::mem::take(&mut self.changed) {
            return;
        }
        let held = memory::read(&self.numbers[..NUMBERS]);
        self.unsound = held == Held::Unsound;
        self.unit.armed = match held {
            Held::Sound(armed) => Some(armed),
            Held::NotArmed | Held::Unsound => None,
        };
    }

    /// Writes the unit into the numbers unless the call was refused.
    fn keep(&mut self, row: Row) -> Row {
        if let (0, Some(armed)) = (row[0], &self.unit.armed) {
            memory::write(armed, &mut self.numbers[..NUMBERS]);
        }
        row
    }
}

/// The row of a refusal.
pub(crate) fn refused(refusal: u64) -> Row {
    [refusal, 0, 0, 0, 0]
}
