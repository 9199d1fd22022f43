//! The unit: its memory, and in its type whether it is armed.

use crate::event::{Answer, Event, Offer};
use crate::memory::{Memory, Usual};
use crate::raw::{self, Row};
use crate::refusal::Refusal;
use crate::refused::{ArmRefusal, Refused};
use crate::time::Time;
use crate::values::{Level, Reset, Root, UnitOfRoot, Verdict};
use core::fmt;
use core::marker::PhantomData;

/// The state of a unit that holds no rules: it can be armed, and nothing else.
#[derive(Debug)]
pub enum Unarmed {}

/// The state of a unit that was armed from an accepted profile.
#[derive(Debug)]
pub enum Armed {}

/// A risk unit on memory `M`. Orders and offers exist for `Unit<M, Armed>` alone:
///
/// ```
/// use mbrumzheg::{Reset, Root, Time, Unit, Verdict};
/// let mut unit = Unit::new().arm("ABCD,abs_vol,XYZ,1000").unwrap();
/// let verdict = unit.order(Time::START, Root::new(0).unwrap(), Reset::None);
/// assert_eq!(verdict, Ok(Verdict::Free));
/// ```
///
/// An unarmed unit has no order to pass, so forgetting to arm does not compile:
///
/// ```compile_fail,E0599
/// use mbrumzheg::{Reset, Root, Time, Unit};
/// let mut unit = Unit::new();
/// unit.order(Time::START, Root::new(0).unwrap(), Reset::None);
/// ```
///
/// Nor does a unit that was cleared take another offer:
///
/// ```compile_fail,E0382
/// use mbrumzheg::{Reset, Root, Time, Unit};
/// let mut unit = Unit::new().arm("ABCD,abs_vol,XYZ,1000").unwrap();
/// unit.clear();
/// unit.order(Time::START, Root::new(0).unwrap(), Reset::None);
/// ```
pub struct Unit<M = Usual, S = Unarmed> {
    memory: M,
    state: PhantomData<S>,
}

/// What adopted memory turned out to hold.
#[derive(Debug)]
pub enum Adopted<M> {
    /// The mark is 0: arm it before you pass the first order.
    Unarmed(Unit<M, Unarmed>),
    /// The mark is 1 and the state is sound.
    Armed(Unit<M, Armed>),
}

/// How the roots stand.
#[derive(Clone, Copy, Debug, PartialEq, Eq)]
pub struct Status {
    /// How many roots are tripped.
    pub tripped: u64,
    /// How many the user has locked.
    pub locked_by_user: u64,
    /// How many are locked at all.
    pub locked: u64,
    /// The lowest locked root.
    pub lowest_locked: Option<Root>,
}

#[cfg(feature = "alloc")]
impl Unit {
    /// A unit on memory of its own, not armed.
    pub fn new() -> Unit {
        Unit::on(alloc::vec![0; raw::SIZE].into_boxed_slice())
    }
}

#[cfg(feature = "alloc")]
impl Default for Unit {
    fn default() -> Unit {
        Unit::new()
    }
}

impl<M: Memory> Unit<M, Unarmed> {
    /// Takes memory that may hold a state already, and finds out by the library's own check of the whole state.
    ///
    /// Refused with [`Refusal::NoRoom`] or [`Refusal::Unsound`]; the memory then comes back as it was.
    ///
    /// ```
    /// use mbrumzheg::{Adopted, Refusal, Unit, SIZE};
    /// let mut lent = vec![0; SIZE];
    /// let Ok(Adopted::Unarmed(unit)) = Unit::adopt(&mut lent[..]) else { panic!("zeros are not armed") };
    /// unit.arm("ABCD,abs_vol,XYZ,1000").unwrap();
    /// assert!(matches!(Unit::adopt(&mut lent[..]), Ok(Adopted::Armed(_))));
    /// lent.fill(7);
    /// assert_eq!(Unit::adopt(&mut lent[..]).unwrap_err().why, Refusal::Unsound);
    /// ```
    pub fn adopt(memory: M) -> Result<Adopted<M>, Refused<M>> {
        match accepted(raw::status(memory.numbers())) {
            Ok(_) => Ok(Adopted::Armed(Unit::on(memory))),
            Err(Refusal::NotArmed) => Ok(Adopted::Unarmed(Unit::on(memory))),
            Err(why) => Err(Refused { why, kept: memory }),
        }
    }

    /// Takes memory and sets the state in it to zeros, whatever it held. Refused with [`Refusal::NoRoom`] alone.
    pub fn cleared(mut memory: M) -> Result<Unit<M, Unarmed>, Refused<M>> {
        match accepted(raw::clear(memory.numbers_mut())) {
            Ok(_) => Ok(Unit::on(memory)),
            Err(why) => Err(Refused { why, kept: memory }),
        }
    }

    /// Arms the unit from a profile text. A refusal hands the unit back, unchanged and unarmed.
    ///
    /// ```
    /// use mbrumzheg::{Refusal, Unit};
    /// let refused = Unit::new().arm("ABCD,abs_vol,XYZ,1000\nABCD,abs_vol,XYZ,0\n").unwrap_err();
    /// assert_eq!((refused.why.refusal, refused.why.line), (Refusal::OutOfRange, Some(2)));
    /// let unit = refused.kept.arm("ABCD,abs_vol,XYZ,1000\n").unwrap();
    /// assert_eq!((unit.rule_count(), unit.root_count()), (1, 1));
    /// ```
    pub fn arm(mut self, profile: impl AsRef<[u8]>) -> Result<Unit<M, Armed>, Refused<Unit<M, Unarmed>, ArmRefusal>> {
        let row = raw::arm(self.memory.numbers_mut(), profile.as_ref());
        match accepted(row) {
            Ok(_) => Ok(Unit::on(self.memory)),
            Err(refusal) => {
                let line = (row[1] > 0).then_some(row[1]);
                Err(Refused { why: ArmRefusal { refusal, line }, kept: self })
            }
        }
    }
}

impl<M: Memory> Unit<M, Armed> {
    /// An order: the reset comes first, then the verdict.
    pub fn order(&mut self, time: Time, root: Root, reset: Reset) -> Result<Verdict, Refusal> {
        let row = raw::order(self.memory.numbers_mut(), time.ms(), root.number(), reset.number());
        judged(row).map(|answer| answer.verdict)
    }

    /// Locks a root or the firm by the user's hand; it answers [`Verdict::Free`].
    pub fn lockout(&mut self, time: Time, level: Level) -> Result<Verdict, Refusal> {
        let row = raw::lockout(self.memory.numbers_mut(), time.ms(), level.number(), level.root_number());
        judged(row).map(|answer| answer.verdict)
    }

    /// An offered fill, cut to what the rules allow.
    pub fn offer(&mut self, offer: Offer) -> Result<Answer, Refusal> {
        let Offer { time, root, unit, premium, contracts } = offer;
        let memory = self.memory.numbers_mut();
        judged(raw::offer(memory, time.ms(), root.number(), unit.number(), premium.ten_thousandths(), contracts.count()))
    }

    /// Any event.
    pub fn answer(&mut self, event: Event) -> Result<Answer, Refusal> {
        match event {
            Event::Order { time, root, reset } => self.order(time, root, reset).map(Answer::of_verdict),
            Event::Offer(offer) => self.offer(offer),
            Event::Lockout { time, level } => self.lockout(time, level).map(Answer::of_verdict),
            Event::Send(sending) => self.send(sending).map(Answer::of_verdict),
            Event::Report(report) => self.report(report),
            Event::Close(closing) => self.close(closing).map(Answer::of_verdict),
        }
    }

    /// What remains of a rule's limit on a unit at a time: ten-thousandths of a dollar, contracts or executions, by the rule's type.
    /// Rules are numbered from 0 by line. Neither the clock nor anything else changes.
    ///
    /// [`Refusal::Unknown`] for a rule that the profile does not have, and for a unit that is not the rule's: for a firm rule any but 0
    /// ([`UnitOfRoot::CallsFront`]), for a rule of one unit any but its own. A rule of a whole root has all four; [`Scope::units`](crate::Scope::units) names
    /// those of each.
    ///
    /// ```
    /// # use mbrumzheg::{Contracts, Offer, Premium, Refusal, Root, Time, Unit, UnitOfRoot};
    /// let mut unit = Unit::new().arm("ABCD,abs_vol,XYZ,100\nABCD,abs_vol,,500,,T").unwrap();
    /// let (time, root, premium) = (Time::START, Root::new(0)?, Premium::from_ten_thousandths(70_000)?);
    /// unit.offer(Offer { time, root, unit: UnitOfRoot::CallsFront, premium, contracts: Contracts::new(60)? })?;
    /// assert_eq!(UnitOfRoot::ALL.map(|of| unit.remaining(time, 0, of)), [Ok(40), Ok(100), Ok(100), Ok(100)]);
    /// assert_eq!(unit.remaining(time, 1, UnitOfRoot::CallsFront), Ok(440));
    /// assert_eq!(unit.remaining(time, 1, UnitOfRoot::PutsFront), Err(Refusal::Unknown));
    /// # Ok::<(), Refusal>(())
    /// ```
    pub fn remaining(&self, time: Time, rule: u64, unit: UnitOfRoot) -> Result<u64, Refusal> {
        accepted(raw::remaining(self.memory.numbers(), time.ms(), rule, unit.number())).map(|row| row[1])
    }

    /// How the roots stand.
    pub fn status(&self) -> Result<Status, Refusal> {
        let [_, tripped, locked_by_user, locked, lowest] = accepted(raw::status(self.memory.numbers()))?;
        Ok(Status { tripped, locked_by_user, locked, lowest_locked: Root::new(lowest).ok() })
    }

    /// Sets the state to zeros; what comes back has to be armed again.
    pub fn clear(mut self) -> Unit<M, Unarmed> {
        let row = raw::clear(self.memory.numbers_mut());
        debug_assert_eq!(row[0], 0, "Clear is refused for short memory alone");
        Unit::on(self.memory)
    }
}

impl<M: Memory, S> Unit<M, S> {
    fn on(memory: M) -> Unit<M, S> {
        Unit { memory, state: PhantomData }
    }

    /// The numbers that the state is kept in.
    pub fn memory(&self) -> &[u64] {
        self.memory.numbers()
    }

    pub(crate) fn memory_mut(&mut self) -> &mut [u64] {
        self.memory.numbers_mut()
    }

    /// Gives the memory back, state and all; [`Unit::adopt`] takes it again.
    pub fn into_memory(self) -> M {
        self.memory
    }
}

impl<M, S> fmt::Debug for Unit<M, S> {
    fn fmt(&self, f: &mut fmt::Formatter<'_>) -> fmt::Result {
        let state = core::any::type_name::<S>();
        f.debug_tuple("Unit").field(&state.rsplit("::").next().unwrap_or(state)).finish()
    }
}

/// The row of a call that was not refused.
///
/// # Panics
/// On a number that is no refusal or an answer outside its range, which a library that meets its contract does not give.
pub(crate) fn accepted(row: Row) -> Result<Row, Refusal> {
    match row[0] {
        0 => Ok(row),
        number => Err(Refusal::from_number(number).expect("the library's refusals are known")),
    }
}

/// The answer in a row: verdict, grant, root trip, firm trip.
pub(crate) fn judged(row: Row) -> Result<Answer, Refusal> {
    let [_, verdict, grant, root_trip, firm_trip] = accepted(row)?;
    let verdict = Verdict::from_number(verdict).expect("the library's verdicts are 0 to 2");
    Ok(Answer { verdict, grant, root_trip: root_trip == 1, firm_trip: firm_trip == 1 })
}
