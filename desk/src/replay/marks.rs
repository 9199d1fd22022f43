//! What is marked on a page's pictures: how often each thing happened in a slot of time, and in which records.

use crate::replay::scale::Scale;

/// What is marked.
#[derive(Clone, Copy, Debug, PartialEq, Eq, PartialOrd, Ord, Hash)]
pub enum Kind {
    /// An offer was cut.
    Cut,
    /// A rule tripped.
    Trip,
    /// An order reset the level: its counts were zeroed, its lock lifted.
    Reset,
    /// An order unlocked the level and left what it counted.
    Unlock,
    /// A fill came back from an away market.
    Back,
    /// The level was locked by hand.
    Lockout,
    /// An order or offer was rejected, since the level was locked.
    Rejected,
}

impl Kind {
    /// Every kind.
    pub const ALL: [Kind; 7] = [Kind::Cut, Kind::Trip, Kind::Reset, Kind::Unlock, Kind::Back, Kind::Lockout, Kind::Rejected];

    /// What it is called.
    pub fn name(self) -> &'static str {
        match self {
            Kind::Cut => "cut",
            Kind::Trip => "trip",
            Kind::Reset => "reset",
            Kind::Unlock => "unlock",
            Kind::Back => "fill from away",
            Kind::Lockout => "lockout by hand",
            Kind::Rejected => "rejection",
        }
    }

    /// What so many of it are called.
    pub fn counted(self, count: u64) -> String {
        let name = match (self, count) {
            (_, 1) => self.name().to_string(),
            (Kind::Lockout, _) => "lockouts by hand".to_string(),
            (Kind::Back, _) => "fills from away".to_string(),
            _ => format!("{}s", self.name()),
        };
        format!("{} {name}", crate::words::grouped(count))
    }
}

/// Things of one kind that happened near to each other.
#[derive(Clone, Copy, Debug, PartialEq, Eq)]
pub struct Tally {
    /// What.
    pub kind: Kind,
    /// When the first of them happened, in milliseconds.
    pub ms: u64,
    /// The places of the first and the last.
    pub places: (usize, usize),
    /// How many they are.
    pub count: u64,
}

/// A list is drawn together again when it is longer than this; slots and kinds are fewer.
const LONGEST: usize = 2_048;
/// So many buckets share a slot.
const SLOT: u64 = 8;

/// What happened to a rule's count, a root or the firm.
#[derive(Clone, Debug, Default, PartialEq, Eq)]
pub struct Marks {
    tallies: Vec<Tally>,
    counts: [u64; Kind::ALL.len()],
}

impl Marks {
    /// Adds a thing that happened in a record.
    pub fn add(&mut self, kind: Kind, ms: u64, place: usize, scale: Scale) {
        self.counts[kind as usize] += 1;
        self.tallies.push(Tally { kind, ms, places: (place, place), count: 1 });
        if self.tallies.len() > LONGEST {
            self.tallies = joined(&self.tallies, scale, SLOT);
        }
    }

    /// How many things of a kind happened.
    pub fn count(&self, kind: Kind) -> u64 {
        self.counts[kind as usize]
    }

    /// Whether nothing happened.
    pub fn is_empty(&self) -> bool {
        self.tallies.is_empty()
    }

    /// The things with those of one kind joined that share a slot of so many buckets.
    pub fn joined(&self, scale: Scale, buckets: u64) -> Vec<Tally> {
        joined(&self.tallies, scale, buckets.max(SLOT))
    }
}

fn joined(tallies: &[Tally], scale: Scale, buckets: u64) -> Vec<Tally> {
    let slot = |tally: &Tally| scale.bucket(tally.ms) / buckets;
    let mut all: Vec<Tally> = Vec::new();
    for tally in tallies {
        let same = |before: &&mut Tally| before.kind == tally.kind;
        let near = all.iter_mut().rev().take_while(|before| slot(before) == slot(tally)).find(same);
        match near {
            Some(before) => {
                before.count += tally.count;
                before.places.1 = tally.places.1;
            }
            None => all.push(*tally),
        }
    }
    all
}
