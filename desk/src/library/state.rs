//! The state under trial. Every call of the library on a state stands here, so that what all of them come to need is added in one place.

use mbrumzheg::{Account, Adopted, Answer, ArmRefusal, Armed, Event, Marks, Name, Refusal, Root, Status, Time, Unit, UnitOfRoot};

/// A state that holds no rules.
#[derive(Default)]
pub struct Cleared(Unit);

impl Cleared {
    /// Arms it from a profile's text.
    pub fn arm(self, text: &[u8]) -> Result<State, ArmRefusal> {
        self.0.arm(text).map(State).map_err(|refused| refused.why)
    }
}

/// A state that a profile has armed.
pub struct State(Unit<Box<[u64]>, Armed>);

impl State {
    /// A fresh state, armed from a profile's text.
    pub fn armed(text: &[u8]) -> Result<State, ArmRefusal> {
        Cleared::default().arm(text)
    }

    /// Takes its rules and its day away.
    pub fn clear(self) -> Cleared {
        Cleared(self.0.clear())
    }

    /// A second state with the same numbers, to try events on; none where the library finds them unsound.
    pub fn copied(&self) -> Option<State> {
        match Unit::adopt(self.memory().to_vec().into_boxed_slice()) {
            Ok(Adopted::Armed(unit)) => Some(State(unit)),
            _ => None,
        }
    }

    /// Passes an event, and counts it in the day's account.
    pub fn answer(&mut self, account: &mut Account, event: Event) -> Result<Answer, Refusal> {
        self.0.accounted_answer(account, event)
    }

    /// What is left of a rule's limit at a time, for one of a root's units.
    pub fn remaining(&self, time: Time, rule: u64, unit: UnitOfRoot) -> Result<u64, Refusal> {
        self.0.remaining(time, rule, unit)
    }

    /// How many roots are tripped, locked by hand and locked at all, and the lowest that is locked.
    pub fn status(&self) -> Result<Status, Refusal> {
        self.0.status()
    }

    /// The active rules as a profile's text.
    pub fn profile(&self) -> Result<String, Refusal> {
        self.0.profile()
    }

    /// The time of the last event that was not refused.
    pub fn clock(&self) -> Time {
        self.0.clock()
    }

    /// The firm's name.
    pub fn firm(&self) -> Name {
        self.0.firm()
    }

    /// How many rules are active.
    pub fn rule_count(&self) -> u64 {
        self.0.rule_count()
    }

    /// How many roots the rules name.
    pub fn root_count(&self) -> u64 {
        self.0.root_count()
    }

    /// The roots by number, with their names.
    pub fn roots(&self) -> impl Iterator<Item = (Root, Name)> + '_ {
        self.0.roots()
    }

    /// How the firm stands.
    pub fn firm_marks(&self) -> Marks {
        self.0.firm_marks()
    }

    /// How a root stands.
    pub fn root_marks(&self, root: Root) -> Marks {
        self.0.root_marks(root)
    }

    /// The numbers that the state consists of.
    pub fn memory(&self) -> &[u64] {
        self.0.memory()
    }
}
