//! A root or the firm over time: when it was locked, by what, and what was rejected meanwhile.

use crate::replay::marks::Marks;
use crate::replay::scale::{Scale, BUCKETS};
use crate::session::standing::Lock;

/// So many locks of a level are told one by one.
pub const MOST_LOCKS: usize = 50;

/// A lock that was told: when it ended, or that it holds.
#[derive(Clone, Debug, PartialEq, Eq)]
pub struct Told {
    /// The lock.
    pub lock: Lock,
    /// When the level was free again, in milliseconds.
    pub until: Option<u64>,
}

/// A root or the firm over time.
#[derive(Clone, Debug, Default, PartialEq, Eq)]
pub struct Lane {
    /// From when to when it was locked, times that no picture could tell apart joined.
    pub locked: Vec<(u64, u64)>,
    /// The first of its locks.
    pub locks: Vec<Told>,
    /// How many locks there were.
    pub count: u64,
    /// Orders, offers and contracts that were rejected for all of them.
    pub rejected: [u64; 3],
    /// What happened at this level.
    pub marks: Marks,
}

impl Lane {
    /// Takes a lock that has ended.
    pub fn ended(&mut self, lock: &Lock, ms: u64, scale: Scale, stretch: Option<(u64, u64)>) {
        self.take(lock, Some(ms), ms, scale, stretch);
    }

    /// Takes a lock that holds at the end of the day.
    pub fn holds(&mut self, lock: &Lock, last: u64, scale: Scale, stretch: Option<(u64, u64)>) {
        self.take(lock, None, last.max(lock.since), scale, stretch);
    }

    fn take(&mut self, lock: &Lock, until: Option<u64>, to: u64, scale: Scale, stretch: Option<(u64, u64)>) {
        let (first, last) = stretch.unwrap_or((0, u64::MAX));
        if to < first || lock.since > last {
            return;
        }
        self.count += 1;
        for (sum, rejected) in self.rejected.iter_mut().zip(lock.rejected) {
            *sum += rejected;
        }
        if self.locks.len() < MOST_LOCKS {
            self.locks.push(Told { lock: lock.clone(), until });
        }
        self.locked.push((lock.since.max(first), to.min(last)));
        if self.locked.len() > 2 * BUCKETS as usize {
            self.locked = joined(&self.locked, scale);
        }
    }

    /// Whether anything happened to it.
    pub fn is_marked(&self) -> bool {
        !self.locked.is_empty() || !self.marks.is_empty()
    }

    /// The times at which it was locked, those joined that no picture could tell apart.
    pub fn bands(&self, scale: Scale) -> Vec<(u64, u64)> {
        joined(&self.locked, scale)
    }
}

fn joined(bands: &[(u64, u64)], scale: Scale) -> Vec<(u64, u64)> {
    let mut all: Vec<(u64, u64)> = Vec::new();
    for (from, to) in bands {
        match all.last_mut().filter(|(_, before)| from.saturating_sub(*before) < scale.width) {
            Some(before) => before.1 = (*to).max(before.1),
            None => all.push((*from, *to)),
        }
    }
    all
}
