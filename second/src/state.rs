//! The state of an armed unit: what it holds, what it knows of it, and its resets.

use std::collections::VecDeque;

use crate::away::Away;
use crate::is_time;
use crate::profile::{Profile, UNITS};

/// The places of the log.
pub const LOG_PLACES: usize = 512;
/// Where a total is held.
pub const MOST_TOTAL: u64 = 1_000_000_000_000_000_000;
/// The verdict of an event that is not locked out.
pub const OPEN: u64 = 0;
/// The verdict under a locked firm.
pub const FIRM_LOCKED: u64 = 1;
/// The verdict under a locked root.
pub const ROOT_LOCKED: u64 = 2;

/// The trip and the lockout by the user of one level.
#[derive(Clone, Copy, Debug, Default, PartialEq, Eq)]
pub struct Marks {
    pub tripped: bool,
    pub user: bool,
}

impl Marks {
    /// Is the level locked, by a trip or by the user?
    pub fn locked(&self) -> bool {
        self.tripped || self.user
    }
}

/// One fill of the log.
#[derive(Clone, Copy, Debug, PartialEq, Eq)]
pub struct Entry {
    pub time: u64,
    pub root: u64,
    pub unit: u64,
    pub premium: u64,
    pub contracts: u64,
    pub counts_for_root: bool,
    pub counts_for_firm: bool,
}

impl Entry {
    /// Does it count for its root or the firm?
    pub fn counts(&self) -> bool {
        self.counts_for_root || self.counts_for_firm
    }
}

/// A rule's totals by account.
pub type Totals = [u64; UNITS as usize];

/// The state of an armed unit.
#[derive(Clone, Debug, PartialEq, Eq)]
pub struct Armed {
    pub profile: Profile,
    pub clock: u64,
    /// The totals of each rule by line, one for each of its accounts; all others stay 0, and a rate rule has none.
    pub totals: Vec<Totals>,
    pub firm: Marks,
    pub roots: Vec<Marks>,
    pub log: VecDeque<Entry>,
    /// The orders sent away that are not closed, in the order of their sending.
    pub away: Vec<Away>,
}

impl Armed {
    /// The state just after arming.
    pub(crate) fn new(profile: Profile) -> Armed {
        Armed {
            clock: 0,
            totals: vec![Totals::default(); profile.rules.len()],
            firm: Marks::default(),
            roots: vec![Marks::default(); profile.roots.len()],
            log: VecDeque::new(),
            away: Vec::new(),
            profile,
        }
    }

    /// Refuses a number that is no time or is below the clock.
    pub(crate) fn check_time(&self, time: u64) -> Result<(), u64> {
        if is_time(time) && time >= self.clock {
            Ok(())
        } else {
            Err(12)
        }
    }

    /// Has the profile this root?
    pub(crate) fn knows_root(&self, root: u64) -> bool {
        root < self.roots.len() as u64
    }

    /// 1 if the firm is locked, else 2 if the root is, else 0.
    pub(crate) fn verdict(&self, root: u64) -> u64 {
        if self.firm.locked() {
            FIRM_LOCKED
        } else if self.roots[root as usize].locked() {
            ROOT_LOCKED
        } else {
            OPEN
        }
    }

    /// SYMBOL: the totals of the root's rules, the root flags of its entries, its trip and lockout.
    pub(crate) fn reset_root(&mut self, root: u64) {
        for (rule, totals) in self.profile.rules.iter().zip(&mut self.totals) {
            if rule.is_of_root(root) {
                *totals = Totals::default();
            }
        }
        for entry in self.log.iter_mut().filter(|entry| entry.root == root) {
            entry.counts_for_root = false;
        }
        self.drop_uncounted();
        self.lift_root(root);
    }

    /// FIRM: the totals of firm rules, the firm flags of all entries, the firm's marks.
    pub(crate) fn reset_firm(&mut self) {
        for (rule, totals) in self.profile.rules.iter().zip(&mut self.totals) {
            if rule.is_firm() {
                *totals = Totals::default();
            }
        }
        for entry in &mut self.log {
            entry.counts_for_firm = false;
        }
        self.drop_uncounted();
        self.lift_firm();
    }

    /// Entries that count for neither root nor firm leave the log.
    fn drop_uncounted(&mut self) {
        self.log.retain(Entry::counts);
    }

    /// T: the root's trip and lockout are taken away, and what it has used stays.
    pub(crate) fn lift_root(&mut self, root: u64) {
        self.roots[root as usize] = Marks::default();
    }

    /// E: the firm's trip and lockout are taken away, and what it has used stays.
    pub(crate) fn lift_firm(&mut self) {
        self.firm = Marks::default();
    }
}
