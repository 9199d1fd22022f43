//! Makes calls one after another, beside a unit that they run on.

use super::call::Call;
use super::profiles::{profile, valid_profile};
use super::random::Random;
use crate::event::Event;
use crate::unit::{Armed, Unit};
use crate::LAST_TIME;

/// How fast the times of a stretch of calls rise.
#[derive(Clone, Copy)]
pub(super) enum Pace {
    Slow,
    Window,
    Even,
}

/// Makes one call after another.
pub struct Maker {
    pub(super) random: Random,
    /// The latest time that a good call had.
    pub(super) clock: u64,
    pub(super) roots: u64,
    pub(super) pace: Pace,
    /// Do its orders zero counts? Without that a day can fill the log.
    pub(super) forgets: bool,
    /// Is every other call about an order sent away? Without that few days fill the register.
    pub(super) sends: bool,
    /// Calls still to be made.
    pub(super) left: u64,
    /// The unit that the calls run on too, if they follow one.
    pub(super) follows: Option<Unit>,
    /// Is the unit not armed?
    cleared: bool,
}

impl Maker {
    pub(super) fn new(seed: u64, n: usize, roots: u64) -> Maker {
        let mut random = Random::new(seed ^ 0x45_7665_6E74);
        let pace = random.pick(&[Pace::Slow, Pace::Window, Pace::Even]);
        let forgets = !random.once_in(4);
        Maker { random, clock: 0, roots, pace, forgets, sends: false, left: n as u64, follows: None, cleared: false }
    }

    pub(super) fn following(seed: u64, n: usize, text: &[u8]) -> Maker {
        let mut unit = Unit::new();
        let answer = unit.arm(text);
        Maker { follows: Some(unit), cleared: answer.refusal != 0, ..Maker::new(seed, n, answer.roots) }
    }

    /// So many calls near a unit that someone else runs them on; `next_on` gives them.
    pub fn beside(seed: u64, n: usize) -> Maker {
        Maker { follows: Some(Unit::new()), ..Maker::new(seed, n, 0) }
    }

    /// The next call of any kind for the unit, which is left as it was.
    pub fn next_on(&mut self, unit: &mut Unit) -> Call {
        let own = self.follows.get_or_insert_default();
        std::mem::swap(own, unit);
        self.cleared = true;
        self.look();
        let call = self.choose();
        self.left = self.left.saturating_sub(1);
        std::mem::swap(self.follows.get_or_insert_default(), unit);
        call
    }

    /// The next call of any kind.
    pub(super) fn call(&mut self) -> Call {
        let call = self.choose();
        self.follow(call);
        call
    }

    /// The next order, offer or lockout; a reset that no record of 12 bytes can have becomes the one that unlocks the same.
    pub(super) fn event(&mut self) -> Call {
        let mut call = self.choose_event();
        if let Call::Order { reset: reset @ 4..=6, .. } = &mut call {
            *reset -= 3;
        }
        self.follow(call);
        call
    }

    /// Chooses an event of any kind, which is not followed yet.
    pub(super) fn choose_any_event(&mut self) -> Option<Event> {
        let call = if self.random.once_in(6) { self.away() } else { self.choose_event() };
        call.event()
    }

    /// Chooses a call of any kind.
    fn choose(&mut self) -> Call {
        match self.random.below(1_000) {
            _ if self.cleared && self.random.once_in(8) => self.arm(),
            _ if self.sends && self.random.once_in(2) => self.away(),
            0 => Call::Clear,
            1..=3 if !self.cleared => Call::Arm { seed: self.random.number() },
            4..=99 => self.remaining(),
            100..=139 => Call::Status,
            140..=159 => self.text(),
            160..=169 => self.profile(),
            170..=289 => self.away(),
            _ => self.choose_event(),
        }
    }

    /// Chooses an order, offer or lockout.
    fn choose_event(&mut self) -> Call {
        if self.random.once_in(300) {
            self.pace = self.random.pick(&[Pace::Slow, Pace::Window, Pace::Even]);
        }
        let call = match self.random.below(100) {
            0..=1 => self.lockout(),
            2..=14 => self.order(),
            _ => self.offer(),
        };
        if self.random.once_in(40) {
            self.odd(call)
        } else {
            call
        }
    }

    /// Runs the call on the unit that the calls follow, and keeps the clock.
    pub(super) fn follow(&mut self, call: Call) {
        self.left = self.left.saturating_sub(1);
        self.cleared |= call == Call::Clear;
        if let Some(time) = call.clock_time().filter(|time| *time <= LAST_TIME) {
            self.clock = self.clock.max(time);
        }
        if let Some(unit) = &mut self.follows {
            call.run(unit);
        }
        self.look();
    }

    /// Takes clock and roots from the unit that the calls follow, if it is armed.
    fn look(&mut self) {
        if let Some(armed) = self.follows.as_ref().and_then(|unit| unit.armed.as_ref()) {
            self.clock = armed.clock;
            self.roots = armed.roots.len() as u64;
            self.cleared = false;
        }
    }

    /// Arms anew after a Clear.
    fn arm(&mut self) -> Call {
        let seed = self.random.number();
        if self.random.once_in(3) {
            let answer = Unit::new().arm(&profile(seed));
            if answer.refusal == 0 {
                self.armed(answer.roots);
            }
            return Call::Arm { seed };
        }
        let roots = Unit::new().arm(&valid_profile(seed)).roots;
        self.armed(roots);
        Call::ArmValid { seed }
    }

    /// Starts the day again with so many roots.
    fn armed(&mut self, roots: u64) {
        self.roots = roots;
        self.clock = 0;
        self.cleared = false;
    }

    /// The state of the unit that the calls follow.
    pub(super) fn state(&self) -> Option<&Armed> {
        self.follows.as_ref()?.armed.as_ref()
    }
}
