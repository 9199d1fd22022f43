//! The risk unit: one firm during one trading day.

pub use crate::answers::*;
pub use crate::away::{Away, LAST_IDENTITY, MOST_REPORTS, REGISTER_PLACES};
pub use crate::calls::NO_ROOT;
use crate::counting::Offer;
use crate::profile;
use crate::profile_out;
pub use crate::state::{Armed, Entry, Marks, Totals, FIRM_LOCKED, LOG_PLACES, MOST_TOTAL, OPEN, ROOT_LOCKED};

/// The text for verdict 1.
pub const FIRM_TEXT: &[u8] = b"f: RiskMgmtFirmLevel";
/// The text for verdict 2.
pub const ROOT_TEXT: &[u8] = b"s: RiskMgmtSymLevel";
/// The room that Text asks for, for either text.
pub const TEXT_ROOM: usize = 20;

/// The unit, armed or not.
#[derive(Clone, Debug, Default, PartialEq, Eq)]
pub struct Unit {
    pub armed: Option<Armed>,
}

impl Unit {
    /// A unit that is not armed.
    pub fn new() -> Unit {
        Unit::default()
    }

    /// Arm from a profile text.
    pub fn arm(&mut self, text: &[u8]) -> ArmAnswer {
        if self.armed.is_some() {
            return ArmAnswer { refusal: 3, ..ArmAnswer::default() };
        }
        match profile::read(text) {
            Err((refusal, line)) => ArmAnswer { refusal, line, ..ArmAnswer::default() },
            Ok(profile) => {
                let firm = profile.firm_number();
                let rules = profile.rules.len() as u64;
                let roots = profile.roots.len() as u64;
                self.armed = Some(Armed::new(profile));
                ArmAnswer { refusal: 0, line: 0, firm, rules, roots }
            }
        }
    }

    /// Clear the state, whatever it held.
    pub fn clear(&mut self) -> ClearAnswer {
        self.armed = None;
        ClearAnswer { refusal: 0 }
    }

    /// Order: the reset first, then the verdict.
    pub fn order(&mut self, time: u64, root: u64, reset: u64) -> EventAnswer {
        self.event(|armed| armed.order(time, root, reset))
    }

    /// Lockout of a root (level 0) or of the firm (level 1).
    pub fn lockout(&mut self, time: u64, level: u64, root: u64) -> EventAnswer {
        self.event(|armed| armed.lockout(time, level, root))
    }

    /// Offer of a fill.
    pub fn offer(&mut self, time: u64, root: u64, unit: u64, premium: u64, contracts: u64) -> EventAnswer {
        self.event(|armed| armed.offer(Offer { time, root, unit, premium, contracts }))
    }

    /// Send of an order to an away market, with the reports that it may have.
    pub fn send(&mut self, time: u64, order: Away) -> EventAnswer {
        self.event(|armed| armed.send(time, order))
    }

    /// Report of a fill from an away market.
    pub fn report(&mut self, time: u64, identity: u64, contracts: u64) -> EventAnswer {
        self.event(|armed| armed.report(time, identity, contracts))
    }

    /// Close of an order sent away.
    pub fn close(&mut self, time: u64, identity: u64) -> EventAnswer {
        self.event(|armed| armed.close(time, identity))
    }

    /// Remaining amount of a rule, numbered from 0 by line, on a unit: the rule's own, or 0 for a firm rule.
    pub fn remaining(&self, time: u64, rule: u64, unit: u64) -> RemainingAnswer {
        let result = self.armed.as_ref().ok_or(4).and_then(|armed| armed.remaining(time, rule, unit));
        match result {
            Ok(value) => RemainingAnswer { refusal: 0, value },
            Err(refusal) => RemainingAnswer { refusal, value: 0 },
        }
    }

    /// Status of the roots.
    pub fn status(&self) -> StatusAnswer {
        match &self.armed {
            Some(armed) => armed.status(),
            None => StatusAnswer { refusal: 4, ..StatusAnswer::default() },
        }
    }

    /// Text for verdict 1 or 2, written to the start of the room.
    pub fn text(&self, verdict: u64, room: &mut [u8]) -> TextAnswer {
        text(verdict, room)
    }

    /// Profile: the active rules as profile text, written to the start of the room.
    pub fn profile(&self, room: &mut [u8]) -> ProfileAnswer {
        let Some(armed) = &self.armed else { return ProfileAnswer { refusal: 4, size: 0 } };
        let text = profile_out::text(&armed.profile);
        let size = text.len() as u64;
        let Some(start) = room.get_mut(..text.len()) else { return ProfileAnswer { refusal: 1, size } };
        start.copy_from_slice(&text);
        ProfileAnswer { refusal: 0, size }
    }

    /// Runs a call with a time on an armed state.
    fn event(&mut self, call: impl FnOnce(&mut Armed) -> Result<EventAnswer, u64>) -> EventAnswer {
        self.armed.as_mut().ok_or(4).and_then(call).unwrap_or_else(EventAnswer::refused)
    }
}

/// Text for verdict 1 or 2; it needs no state.
pub fn text(verdict: u64, room: &mut [u8]) -> TextAnswer {
    let bytes = match verdict {
        FIRM_LOCKED => FIRM_TEXT,
        ROOT_LOCKED => ROOT_TEXT,
        _ => return TextAnswer { refusal: 13, length: 0 },
    };
    if room.len() < TEXT_ROOM {
        return TextAnswer { refusal: 1, length: 0 };
    }
    room[..bytes.len()].copy_from_slice(bytes);
    TextAnswer { refusal: 0, length: bytes.len() as u64 }
}
