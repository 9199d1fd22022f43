//! What did not simply pass, the first lines of each group.

/// So many lines of a group are kept.
pub const MOST_LINES: usize = 200;

/// The groups, in the order in which a page tells them.
#[derive(Clone, Copy, Debug, PartialEq, Eq)]
pub enum Group {
    /// Offers that tripped a level, cut ones among them.
    Trips,
    /// Orders sent away, reports of them, and closings.
    Away,
    /// Lockouts by hand and resets.
    Locks,
    /// Events that the library refused, and records that hold none.
    Refused,
    /// Orders and offers that were rejected.
    Rejected,
}

impl Group {
    /// Every group, in order.
    pub const ALL: [Group; 5] = [Group::Trips, Group::Away, Group::Locks, Group::Refused, Group::Rejected];

    /// What its table is called within the page.
    pub fn id(self) -> &'static str {
        match self {
            Group::Trips => "trip-list",
            Group::Away => "away-list",
            Group::Locks => "hand-list",
            Group::Refused => "refused-list",
            Group::Rejected => "rejected-list",
        }
    }

    /// Its heading.
    pub fn heading(self) -> &'static str {
        match self {
            Group::Trips => "Cuts and trips",
            Group::Away => "Sent away, come back and closed",
            Group::Locks => "Lockouts by hand and resets",
            Group::Refused => "Refused events and faulty records",
            Group::Rejected => "Rejected orders and offers",
        }
    }
}

/// A line of the table.
#[derive(Clone, Debug, PartialEq, Eq)]
pub struct Entry {
    /// The record's place, from 1.
    pub place: usize,
    /// The event and its answer in words.
    pub words: String,
}

/// The lines by group.
#[derive(Default)]
pub struct Entries {
    lines: [Vec<Entry>; Group::ALL.len()],
    counts: [u64; Group::ALL.len()],
}

impl Entries {
    /// Counts a line, and keeps it while there is room.
    pub fn add(&mut self, group: Group, place: usize, words: impl FnOnce() -> String) {
        self.counts[group as usize] += 1;
        let lines = &mut self.lines[group as usize];
        if lines.len() < MOST_LINES {
            lines.push(Entry { place, words: words() });
        }
    }

    /// The lines of a group that were kept, and how many there are in all.
    pub fn of(&self, group: Group) -> (&[Entry], u64) {
        (&self.lines[group as usize], self.counts[group as usize])
    }
}
