//! A day's time in buckets of equal width, few enough to draw one a pixel, and what a count has used in each.

use crate::session::ledger::{Used, Watch};

/// A day has at most so many buckets: one for each pixel of a wide picture.
pub const BUCKETS: u64 = 2_048;

/// Where buckets begin and how wide they are, in milliseconds.
#[derive(Clone, Copy, Debug, PartialEq, Eq)]
pub struct Scale {
    /// The first bucket's begin.
    pub first: u64,
    /// Every bucket's width, a power of two.
    pub width: u64,
}

impl Scale {
    /// Buckets of a millisecond from a time on.
    pub fn from(first: u64) -> Scale {
        Scale { first, width: 1 }
    }

    /// The narrowest buckets that reach from one time to another.
    pub fn over(first: u64, last: u64) -> Scale {
        let mut scale = Scale::from(first);
        while !scale.reaches(last) {
            scale.width *= 2;
        }
        scale
    }

    /// The bucket of a time.
    pub fn bucket(&self, ms: u64) -> u64 {
        ms.saturating_sub(self.first) / self.width
    }

    /// Whether a time lies in the last bucket or before.
    pub fn reaches(&self, ms: u64) -> bool {
        self.bucket(ms) < BUCKETS
    }

    /// How many buckets there are up to a time, its own among them.
    pub fn count(&self, last: u64) -> u64 {
        self.bucket(last) + 1
    }

    /// Where a bucket begins.
    pub fn begin(&self, bucket: u64) -> u64 {
        self.first + bucket * self.width
    }
}

/// What was used in a bucket in which that changed.
#[derive(Clone, Copy, Debug, PartialEq, Eq)]
pub struct Cell {
    /// The bucket.
    pub at: u64,
    /// The least of the amounts that came up in it.
    pub least: u64,
    /// The greatest.
    pub most: u64,
    /// The last.
    pub last: u64,
}

/// The use of a limit over time, by one count.
#[derive(Clone, Debug, Default, PartialEq, Eq)]
pub struct Curve {
    /// What was used before the first bucket.
    pub start: u64,
    /// The buckets in which the use changed, in order.
    pub cells: Vec<Cell>,
    /// The time at which most was used first, and how much that was.
    pub peak: (u64, u64),
}

impl Curve {
    fn note(&mut self, at: u64, used: u64) {
        if self.cells.last().map_or(self.start, |cell| cell.last) == used {
            return;
        }
        match self.cells.last_mut().filter(|cell| cell.at == at) {
            Some(cell) => *cell = Cell { at, least: cell.least.min(used), most: cell.most.max(used), last: used },
            None => self.cells.push(Cell { at, least: used, most: used, last: used }),
        }
    }

    /// Takes what is used from a time on.
    fn take(&mut self, ms: u64, used: u64, scale: Scale, stretch: Option<(u64, u64)>) {
        match stretch {
            Some((from, _)) if ms < from => {
                self.start = used;
                self.peak = (from, used);
            }
            Some((_, to)) if ms > to => {}
            _ => {
                if used > self.peak.1 {
                    self.peak = (ms, used);
                }
                self.note(scale.bucket(ms), used);
            }
        }
    }

    /// Buckets of twice the width.
    pub fn halved(&self) -> Curve {
        let mut cells: Vec<Cell> = Vec::with_capacity(self.cells.len());
        for cell in &self.cells {
            let at = cell.at / 2;
            match cells.last_mut().filter(|before| before.at == at) {
                Some(before) => {
                    *before = Cell { at, least: before.least.min(cell.least), most: before.most.max(cell.most), last: cell.last }
                }
                None => cells.push(Cell { at, ..*cell }),
            }
        }
        Curve { start: self.start, cells, peak: self.peak }
    }

    /// What was used in a bucket: the least, the greatest and the last, what it began with among them.
    pub fn in_bucket(&self, at: u64) -> (u64, u64, u64) {
        let after = self.cells.partition_point(|cell| cell.at < at);
        let before = self.cells[..after].last().map_or(self.start, |cell| cell.last);
        match self.cells.get(after).filter(|cell| cell.at == at) {
            Some(cell) => (cell.least.min(before), cell.most.max(before), cell.last),
            None => (before, before, before),
        }
    }
}

/// The curves of all counts, over a day whose length is not known before its end, or over a stretch of it.
pub struct Curves {
    /// The buckets; none before the first event.
    pub scale: Option<Scale>,
    /// By count.
    pub counts: Vec<Curve>,
    /// By count, what came back from away of it.
    pub away: Vec<Curve>,
    /// The first and last time that is drawn, in milliseconds.
    stretch: Option<(u64, u64)>,
}

impl Curves {
    /// Nothing used yet.
    pub fn new(counts: usize, stretch: Option<(u64, u64)>) -> Curves {
        Curves {
            scale: stretch.map(|(from, to)| Scale::over(from, to)),
            counts: vec![Curve::default(); counts],
            away: vec![Curve::default(); counts],
            stretch,
        }
    }

    /// Sees to it that a time has a bucket: the first time begins them, and a late one makes them all twice as wide.
    pub fn reach(&mut self, ms: u64) -> Scale {
        let mut scale = self.scale.unwrap_or(Scale::from(ms));
        while !scale.reaches(ms) && self.stretch.is_none() {
            scale.width *= 2;
            self.counts.iter_mut().chain(&mut self.away).for_each(|curve| *curve = curve.halved());
        }
        self.scale = Some(scale);
        scale
    }

    /// Whether a time is drawn.
    pub fn shows(&self, ms: u64) -> bool {
        self.stretch.is_none_or(|(from, to)| from <= ms && ms <= to)
    }
}

impl Watch for Curves {
    fn used(&mut self, count: usize, ms: u64, used: Used) {
        let scale = self.reach(ms);
        for (curves, amount) in [(&mut self.counts, used.all), (&mut self.away, used.away)] {
            if let Some(curve) = curves.get_mut(count) {
                curve.take(ms, amount, scale, self.stretch);
            }
        }
    }
}
