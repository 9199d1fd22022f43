//! What all pictures of a day are drawn with.

use crate::profile::Profile;
use crate::replay::day::Day;
use crate::replay::marks::Tally;
use crate::report::chart::Axis;

/// What all pictures are drawn with.
pub struct Drawn<'a> {
    /// The profile.
    pub profile: &'a Profile,
    /// The day.
    pub day: &'a Day,
    /// The time axis.
    pub axis: &'a Axis,
    /// What happened to each level.
    pub lane_marks: &'a [Vec<Tally>],
    /// What happened in each count.
    pub own_marks: &'a [Vec<Tally>],
}

impl Drawn<'_> {
    /// When a level was locked, if it ever was.
    pub fn band(&self, level: usize, top: f64, height: f64) -> String {
        let locked = self.day.lanes.get(level).is_some_and(|lane| !lane.locked.is_empty());
        if !locked {
            return String::new();
        }
        format!("<use href=\"#band{level}\" y=\"{top}\" width=\"100%\" height=\"{height}\"/>")
    }
}
