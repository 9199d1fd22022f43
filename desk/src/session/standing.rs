//! How the levels stand: which are locked, since when and by what, and which counts have tripped.

use crate::profile::{Count, Profile};
use crate::words;
use mbrumzheg::{Marks, Time};

/// A lock of a level, from its first cause to the time at which the level is free again.
#[derive(Clone, Debug, Default, PartialEq, Eq)]
pub struct Lock {
    /// Which level.
    pub level: usize,
    /// Since when, in milliseconds.
    pub since: u64,
    /// When counts tripped that are a cause, and their places: each count once, however often it trips again.
    pub tripped: Vec<(u64, Vec<usize>)>,
    /// When a user's lockout became a cause.
    pub by_hand: Option<u64>,
    /// Orders, offers and contracts that were rejected for it.
    pub rejected: [u64; 3],
}

impl Lock {
    /// What locked the level, its rules by all their words and with the unit that tripped.
    pub fn cause(&self, profile: &Profile) -> String {
        self.cause_by(|count| profile.count_words(count))
    }

    /// What locked the level, its rules by their numbers, with the unit that tripped where there are four.
    pub fn short_cause(&self, profile: &Profile) -> String {
        self.cause_by(|place| profile.counts.get(place).map(Count::short_words).unwrap_or_default())
    }

    /// A cause that came later than the lock is said with its time.
    fn cause_by(&self, name: impl Fn(usize) -> String) -> String {
        let later = |ms: u64| match Time::from_ms(ms) {
            Ok(time) if ms > self.since => format!(" at {}", words::time(time)),
            _ => String::new(),
        };
        let trips = self.tripped.iter().map(|(at, counts)| {
            let names: Vec<String> = counts.iter().map(|place| name(*place)).collect();
            format!("{} tripped{}", names.join(" and "), later(*at))
        });
        let hand = self.by_hand.map(|at| format!("locked by hand{}", later(at)));
        trips.chain(hand).collect::<Vec<_>>().join("; ")
    }
}

/// The levels' locks and the counts' trips.
pub struct Standing {
    locks: Vec<Option<Lock>>,
    tripped: Vec<Option<u64>>,
}

impl Standing {
    /// Everything free.
    pub fn of(profile: &Profile) -> Standing {
        Standing { locks: vec![None; profile.roots.len() + 1], tripped: vec![None; profile.counts.len()] }
    }

    /// The lock of a level, if it is locked.
    pub fn lock(&self, level: usize) -> Option<&Lock> {
        self.locks.get(level)?.as_ref()
    }

    /// When the count at a place tripped, if its level is still locked for it.
    pub fn tripped(&self, count: usize) -> Option<u64> {
        self.tripped.get(count).copied().flatten()
    }

    /// All locks that hold.
    pub fn locks(&self) -> impl Iterator<Item = &Lock> {
        self.locks.iter().flatten()
    }

    /// Takes what the library says of a level's marks at a time, and the places of the counts that tripped then; answers the lock that has ended.
    pub fn take(&mut self, profile: &Profile, level: usize, ms: u64, marks: Marks, tripping: &[usize]) -> Option<Lock> {
        if !marks.tripped {
            profile.counts_of(level).for_each(|count| self.tripped[count.place] = None);
        }
        let of_level = |place: &usize| profile.counts.get(*place).is_some_and(|count| count.level() == level);
        let fresh: Vec<usize> = tripping.iter().copied().filter(of_level).filter(|place| self.tripped(*place).is_none()).collect();
        fresh.iter().for_each(|place| self.tripped[*place] = Some(ms));
        let place = self.locks.get_mut(level)?;
        if !marks.locked() {
            return place.take();
        }
        let lock = place.get_or_insert_with(|| Lock { level, since: ms, ..Lock::default() });
        if !marks.tripped {
            lock.tripped.clear();
        }
        if !fresh.is_empty() {
            lock.tripped.push((ms, fresh));
        }
        lock.by_hand = marks.locked_by_user.then(|| lock.by_hand.unwrap_or(ms));
        None
    }

    /// Counts an order, or an offer of so many contracts, that was rejected for a level's lock.
    pub fn reject(&mut self, level: usize, contracts: Option<u64>) {
        if let Some(Some(lock)) = self.locks.get_mut(level) {
            lock.rejected[usize::from(contracts.is_some())] += 1;
            lock.rejected[2] += contracts.unwrap_or(0);
        }
    }
}
