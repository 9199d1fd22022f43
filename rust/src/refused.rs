//! A refusal with what belongs to it: a profile's line, a room's size, or what was handed in.

use crate::refusal::Refusal;
use core::error::Error;
use core::fmt;

/// A refused Arm: the refusal and, for 6 to 11, the profile's first faulty line, from 1.
#[derive(Clone, Copy, Debug, PartialEq, Eq, Hash)]
pub struct ArmRefusal {
    /// Why.
    pub refusal: Refusal,
    /// Which line, from 1, if one is at fault.
    pub line: Option<u64>,
}

impl fmt::Display for ArmRefusal {
    fn fmt(&self, f: &mut fmt::Formatter<'_>) -> fmt::Result {
        match self.line {
            Some(line) => write!(f, "refused with {} at line {line}: {}", self.refusal.number(), self.refusal.sentence()),
            None => self.refusal.fmt(f),
        }
    }
}

impl Error for ArmRefusal {
    /// The refusal itself.
    fn source(&self) -> Option<&(dyn Error + 'static)> {
        Some(&self.refusal)
    }
}

impl From<ArmRefusal> for Refusal {
    fn from(why: ArmRefusal) -> Refusal {
        why.refusal
    }
}

/// A refused text: the refusal and, where the room alone is short, how many bytes it takes.
#[derive(Clone, Copy, Debug, PartialEq, Eq, Hash)]
pub struct RoomRefusal {
    /// Why.
    pub refusal: Refusal,
    /// How many bytes of room are needed, if it is the room that is short.
    pub needed: Option<usize>,
}

impl fmt::Display for RoomRefusal {
    fn fmt(&self, f: &mut fmt::Formatter<'_>) -> fmt::Result {
        self.refusal.fmt(f)?;
        self.needed.map_or(Ok(()), |bytes| write!(f, " (it takes {bytes} bytes)"))
    }
}

impl Error for RoomRefusal {
    /// The refusal itself.
    fn source(&self) -> Option<&(dyn Error + 'static)> {
        Some(&self.refusal)
    }
}

impl From<RoomRefusal> for Refusal {
    fn from(why: RoomRefusal) -> Refusal {
        why.refusal
    }
}

/// A refusal together with what was handed in, so that nothing is lost by it. `?` turns it into the refusal alone.
///
/// ```
/// use mbrumzheg::{ArmRefusal, Refusal, Unit};
/// fn rules(lent: &mut [u64], profile: &str) -> Result<u64, ArmRefusal> {
///     Ok(Unit::cleared(lent)?.arm(profile)?.rule_count())
/// }
/// assert_eq!(rules(&mut [0; 9], "ABCD,abs_vol,XYZ,1000").unwrap_err().refusal, Refusal::NoRoom);
/// assert_eq!(rules(&mut [0; mbrumzheg::SIZE], "ABCD,abs_vol,XYZ,0").unwrap_err().line, Some(1));
/// ```
#[derive(Debug)]
pub struct Refused<U, E = Refusal> {
    /// Why.
    pub why: E,
    /// What was handed in, as it was.
    pub kept: U,
}

impl<U> From<Refused<U>> for Refusal {
    fn from(refused: Refused<U>) -> Refusal {
        refused.why
    }
}

impl<U> From<Refused<U>> for ArmRefusal {
    fn from(refused: Refused<U>) -> ArmRefusal {
        ArmRefusal { refusal: refused.why, line: None }
    }
}

impl<U> From<Refused<U, ArmRefusal>> for ArmRefusal {
    fn from(refused: Refused<U, ArmRefusal>) -> ArmRefusal {
        refused.why
    }
}

impl<U, E: fmt::Display> fmt::Display for Refused<U, E> {
    fn fmt(&self, f: &mut fmt::Formatter<'_>) -> fmt::Result {
        self.why.fmt(f)
    }
}

impl<U: fmt::Debug, E: Error + 'static> Error for Refused<U, E> {
    /// Why, without what was handed in.
    fn source(&self) -> Option<&(dyn Error + 'static)> {
        Some(&self.why)
    }
}
