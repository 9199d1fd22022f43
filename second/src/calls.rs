//! The calls on an armed state: their checks in order, then what they do and answer.

use crate::answers::{EventAnswer, StatusAnswer};
use crate::counting::Offer;
use crate::profile::UNITS;
use crate::state::{Armed, Marks, OPEN};
use crate::{is_contracts, is_premium};

/// The lowest locked root of Status if no root is locked.
pub const NO_ROOT: u64 = 64;

/// The reset of the root: counts, trip and lockout.
const SYMBOL: u64 = 1;
/// The reset of the firm: counts, trip and lockout.
const FIRM: u64 = 2;
/// Both of these.
const BOTH: u64 = 3;
/// Lifts the root's trip and lockout alone.
const T: u64 = 4;
/// Lifts the firm's trip and lockout alone.
const E: u64 = 5;
/// Both of these, and the last reset that is known.
const T_AND_E: u64 = 6;

impl Armed {
    /// Order: the reset first, then the verdict.
    pub(crate) fn order(&mut self, time: u64, root: u64, reset: u64) -> Result<EventAnswer, u64> {
        self.check_time(time)?;
        if !self.knows_root(root) || reset > T_AND_E {
            return Err(13);
        }
        self.clock = time;
        if matches!(reset, SYMBOL | BOTH) {
            self.reset_root(root);
        }
        if matches!(reset, FIRM | BOTH) {
            self.reset_firm();
        }
        if matches!(reset, T | T_AND_E) {
            self.lift_root(root);
        }
        if matches!(reset, E | T_AND_E) {
            self.lift_firm();
        }
        Ok(EventAnswer::verdict(self.verdict(root)))
    }

    /// Lockout of a root or of the firm.
    pub(crate) fn lockout(&mut self, time: u64, level: u64, root: u64) -> Result<EventAnswer, u64> {
        self.check_time(time)?;
        match level {
            0 if self.knows_root(root) => self.roots[root as usize].user = true,
            1 if root == 0 => self.firm.user = true,
            _ => return Err(13),
        }
        self.clock = time;
        Ok(EventAnswer::verdict(OPEN))
    }

    /// Offer: the grant, and which levels trip.
    pub(crate) fn offer(&mut self, offer: Offer) -> Result<EventAnswer, u64> {
        self.check_time(offer.time)?;
        if !self.knows_root(offer.root) || offer.unit >= UNITS {
            return Err(13);
        }
        if !is_premium(offer.premium) || !is_contracts(offer.contracts) {
            return Err(14);
        }
        let verdict = self.verdict(offer.root);
        if verdict != OPEN {
            self.clock = offer.time;
            return Ok(EventAnswer::verdict(verdict));
        }
        let allowances = self.allowances(&offer);
        let grant = allowances.iter().map(|allowed| allowed.allowance).min().unwrap_or(offer.contracts);
        if grant > 0 && self.lacks_places(offer.time, 1) {
            return Err(15);
        }
        self.clock = offer.time;
        if grant > 0 {
            self.fill(&offer, grant);
        }
        let tripped = self.tripped_by_offer(&allowances, grant, offer.contracts);
        Ok(self.trip(offer.root, &tripped, grant))
    }

    /// What an account of a rule leaves at a time.
    pub(crate) fn remaining(&self, time: u64, rule: u64, account: u64) -> Result<u64, u64> {
        self.check_time(time)?;
        let place = usize::try_from(rule).map_err(|_| 13u64)?;
        let known = self.profile.rules.get(place).filter(|rule| rule.has_account(account)).ok_or(13u64)?;
        Ok(known.limit.saturating_sub(self.counted(place, account, time)))
    }

    /// How many roots are marked, and the lowest that is locked.
    pub(crate) fn status(&self) -> StatusAnswer {
        let how_many = |is: fn(&Marks) -> bool| self.roots.iter().filter(|marks| is(marks)).count() as u64;
        StatusAnswer {
            refusal: 0,
            tripped: how_many(|marks| marks.tripped),
            user: how_many(|marks| marks.user),
            locked: how_many(Marks::locked),
            lowest: self.roots.iter().position(Marks::locked).map_or(NO_ROOT, |root| root as u64),
        }
    }
}
