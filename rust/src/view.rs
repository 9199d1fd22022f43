//! What may be asked of an armed unit beside its events: clock, names and marks. The library answers for the roots' names; the rest is read from the
//! memory by the map in `docs/MEMORY.md`, which is tested against the second program, not proved.

use crate::memory::Memory;
use crate::place;
use crate::raw;
use crate::time::Time;
use crate::unit::{Armed, Unit};
use crate::values::Root;
use core::fmt;

/// The name of a firm or a root: 1 to 6 capitals or digits.
#[derive(Clone, Copy, PartialEq, Eq, Hash)]
pub struct Name {
    bytes: [u8; 6],
    length: usize,
}

impl Name {
    /// A firm's name from its number: the bytes in base 256, the first on top.
    fn from_number(number: u64) -> Name {
        let all = number.to_be_bytes();
        let letters = &all[number.leading_zeros() as usize / 8..];
        let length = letters.len().min(6);
        let mut bytes = [0; 6];
        bytes[..length].copy_from_slice(&letters[..length]);
        Name { bytes, length }
    }

    /// The name's letters.
    pub fn as_str(&self) -> &str {
        core::str::from_utf8(&self.bytes[..self.length]).unwrap_or_default()
    }
}

impl fmt::Display for Name {
    fn fmt(&self, f: &mut fmt::Formatter<'_>) -> fmt::Result {
        f.pad(self.as_str())
    }
}

impl fmt::Debug for Name {
    fn fmt(&self, f: &mut fmt::Formatter<'_>) -> fmt::Result {
        fmt::Debug::fmt(self.as_str(), f)
    }
}

/// Why a root or the firm is locked: by a tripped rule, by the user, by both or not at all.
#[derive(Clone, Copy, Debug, Default, PartialEq, Eq)]
pub struct Marks {
    /// A rule has tripped.
    pub tripped: bool,
    /// The user has locked it.
    pub locked_by_user: bool,
}

impl Marks {
    /// Whether it is locked at all.
    pub const fn locked(self) -> bool {
        self.tripped || self.locked_by_user
    }
}

impl<M: Memory> Unit<M, Armed> {
    /// The time of the last event that was not refused.
    pub fn clock(&self) -> Time {
        Time::from_ms(self.memory()[place::CLOCK]).unwrap_or(Time::START)
    }

    /// The firm's name.
    pub fn firm(&self) -> Name {
        Name::from_number(self.memory()[place::FIRM])
    }

    /// How many rules the profile has.
    pub fn rule_count(&self) -> u64 {
        self.memory()[place::RULE_COUNT]
    }

    /// How many roots the profile has.
    pub fn root_count(&self) -> u64 {
        self.memory()[place::ROOT_COUNT]
    }

    /// The roots with their names, by number.
    pub fn roots(&self) -> impl Iterator<Item = (Root, Name)> + '_ {
        (0..self.root_count()).map_while(|number| {
            let root = Root::new(number).ok()?;
            Some((root, self.root_name(root)?))
        })
    }

    /// The name of a root; none if the profile does not have it.
    ///
    /// ```
    /// # use mbrumzheg::{Root, Unit};
    /// let unit = Unit::new().arm("ABCD,abs_vol,XYZ,1000").unwrap();
    /// assert_eq!(unit.root_name(Root::new(0).unwrap()).unwrap().as_str(), "XYZ");
    /// assert!(unit.root_name(Root::new(1).unwrap()).is_none());
    /// ```
    pub fn root_name(&self, root: Root) -> Option<Name> {
        let mut bytes = [0; 6];
        let [refusal, length, ..] = raw::root_name(self.memory(), root.number(), &mut bytes);
        (refusal == 0).then_some(Name { bytes, length: length as usize })
    }

    /// The root of a name.
    ///
    /// ```
    /// # use mbrumzheg::Unit;
    /// let unit = Unit::new().arm("ABCD,abs_vol,XYZ,1000\nABCD,abs_vol,QQQ,5\n").unwrap();
    /// assert_eq!(unit.root_named("QQQ").unwrap().number(), 1);
    /// assert!(unit.root_named("SPY").is_none());
    /// ```
    pub fn root_named(&self, name: &str) -> Option<Root> {
        match raw::root_named(self.memory(), name.as_bytes()) {
            [0, root, ..] => Root::new(root).ok(),
            _ => None,
        }
    }

    /// The firm's marks.
    pub fn firm_marks(&self) -> Marks {
        let memory = self.memory();
        Marks { tripped: memory[place::FIRM_TRIPPED] == 1, locked_by_user: memory[place::FIRM_LOCKED] == 1 }
    }

    /// A root's marks.
    pub fn root_marks(&self, root: Root) -> Marks {
        let memory = self.memory();
        let bit = |word: u64| word >> root.number() & 1 == 1;
        Marks { tripped: bit(memory[place::ROOTS_TRIPPED]), locked_by_user: bit(memory[place::ROOTS_LOCKED]) }
    }
}
