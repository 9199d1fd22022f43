//! What the calls answer, each with its row of numbers: the refusal first.

/// The answer of Arm.
#[derive(Clone, Copy, Debug, Default, PartialEq, Eq)]
pub struct ArmAnswer {
    pub refusal: u64,
    pub line: u64,
    /// The firm's bytes as one number, base 256.
    pub firm: u64,
    pub rules: u64,
    pub roots: u64,
}

impl ArmAnswer {
    /// Refusal, line, firm, rules, roots.
    pub fn numbers(&self) -> [u64; 5] {
        [self.refusal, self.line, self.firm, self.rules, self.roots]
    }
}

/// The answer of Clear.
#[derive(Clone, Copy, Debug, Default, PartialEq, Eq)]
pub struct ClearAnswer {
    pub refusal: u64,
}

impl ClearAnswer {
    /// The refusal.
    pub fn numbers(&self) -> [u64; 1] {
        [self.refusal]
    }
}

/// The answer of Order, Lockout and Offer.
#[derive(Clone, Copy, Debug, Default, PartialEq, Eq)]
pub struct EventAnswer {
    pub refusal: u64,
    pub verdict: u64,
    pub grant: u64,
    pub root_trip: u64,
    pub firm_trip: u64,
}

impl EventAnswer {
    /// The answer with this refusal and zeros.
    pub fn refused(refusal: u64) -> EventAnswer {
        EventAnswer { refusal, ..EventAnswer::default() }
    }

    /// The answer with this verdict and nothing granted or tripped.
    pub(crate) fn verdict(verdict: u64) -> EventAnswer {
        EventAnswer { verdict, ..EventAnswer::default() }
    }

    /// Refusal, verdict, grant, root trip, firm trip.
    pub fn numbers(&self) -> [u64; 5] {
        [self.refusal, self.verdict, self.grant, self.root_trip, self.firm_trip]
    }
}

/// The answer of Remaining.
#[derive(Clone, Copy, Debug, Default, PartialEq, Eq)]
pub struct RemainingAnswer {
    pub refusal: u64,
    pub value: u64,
}

impl RemainingAnswer {
    /// Refusal, value.
    pub fn numbers(&self) -> [u64; 2] {
        [self.refusal, self.value]
    }
}

/// The answer of Status.
#[derive(Clone, Copy, Debug, Default, PartialEq, Eq)]
pub struct StatusAnswer {
    pub refusal: u64,
    pub tripped: u64,
    pub user: u64,
    pub locked: u64,
    pub lowest: u64,
}

impl StatusAnswer {
    /// Refusal, roots tripped, locked by the user, locked at all, lowest locked root.
    pub fn numbers(&self) -> [u64; 5] {
        [self.refusal, self.tripped, self.user, self.locked, self.lowest]
    }
}

/// The answer of Text.
#[derive(Clone, Copy, Debug, Default, PartialEq, Eq)]
pub struct TextAnswer {
    pub refusal: u64,
    /// The bytes written.
    pub length: u64,
}

impl TextAnswer {
    /// Refusal, length.
    pub fn numbers(&self) -> [u64; 2] {
        [self.refusal, self.length]
    }
}

/// The answer of Profile.
#[derive(Clone, Copy, Debug, Default, PartialEq, Eq)]
pub struct ProfileAnswer {
    pub refusal: u64,
    /// The bytes written, or those needed where the room is short.
    pub size: u64,
}

impl ProfileAnswer {
    /// Refusal, size.
    pub fn numbers(&self) -> [u64; 2] {
        [self.refusal, self.size]
    }
}
