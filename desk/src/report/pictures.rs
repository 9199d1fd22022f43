//! The pictures of a day: one with a lane for the firm and each root, and one for every count of a rule that was used.

use crate::profile::{level_name, Profile};
use crate::replay::day::Day;
use crate::replay::marks::{Kind, Tally};
use crate::report::chart::{bands, escaped, marks, within, Axis, BOTTOM};
use crate::report::drawn::Drawn;
use crate::report::figures::{self, CountFigures};
use crate::report::uses::{plots, Plots};
use crate::words::counted;

/// The height of a lane.
const LANE: f64 = 24.0;
/// So many bytes the curves and the bands may take: a page stays below three million whatever the day.
const CURVE_BYTES: usize = 800_000;
const BAND_BYTES: usize = 100_000;
/// So many marks the lanes and the counts may have, each; a mark takes some hundred bytes, and a level's resets and lockouts are there twice.
const MOST_MARKS: usize = 2_000;

/// The pictures, and what they share.
#[derive(Default)]
pub struct Pictures {
    /// How many buckets the curves have, and how wide each is, in milliseconds.
    pub buckets: (u64, u64),
    /// When each level was locked, to be used by several pictures.
    pub shared: String,
    /// The lanes.
    pub lanes: String,
    /// The rules, each in a section of its own with a picture for each of its counts.
    pub rules: String,
}

/// Draws a day.
pub fn draw(profile: &Profile, day: &Day, axis: &Axis) -> Pictures {
    let (_, shared) = within(BAND_BYTES, |coarse| all_bands(day, axis, coarse), String::len);
    let level_marks =
        |coarse: u32| -> Vec<Vec<Tally>> { day.lanes.iter().map(|lane| lane.marks.joined(axis.scale, 8 << coarse)).collect() };
    let count_marks = |coarse: u32| -> Vec<Vec<Tally>> { day.marks.iter().map(|marks| marks.joined(axis.scale, 8 << coarse)).collect() };
    let (_, lane_marks) = within(MOST_MARKS, level_marks, Vec::len);
    let (_, own_marks) = within(MOST_MARKS, count_marks, Vec::len);
    let used: Vec<CountFigures> = in_order(figures::limits(profile, day)).into_iter().filter(CountFigures::is_used).collect();
    let (halvings, plots) = within(CURVE_BYTES, |coarse| plots(&used, day, axis, coarse), Plots::length);
    let drawn = Drawn { profile, day, axis, lane_marks: &lane_marks, own_marks: &own_marks };
    let each: Vec<(&CountFigures, &Plots)> = used.iter().zip(&plots).collect();
    let sections = each.chunk_by(|(one, _), (next, _)| one.rule.number == next.rule.number).map(|counts| drawn.rule(counts));
    let buckets = (axis.count.div_ceil(1 << halvings), axis.scale.width << halvings);
    Pictures { buckets, shared: shared.concat() + &drawn.level_marks(), lanes: drawn.lanes(), rules: sections.collect() }
}

/// By place, as the profile has them.
fn in_order(mut limits: Vec<CountFigures>) -> Vec<CountFigures> {
    limits.sort_by_key(|figures| figures.count.place);
    limits
}

fn all_bands(day: &Day, axis: &Axis, coarse: u32) -> Vec<String> {
    let joining = crate::replay::scale::Scale { width: axis.scale.width << coarse, ..axis.scale };
    let each = day.lanes.iter().enumerate().filter(|(_, lane)| !lane.locked.is_empty());
    each.map(|(level, lane)| {
        format!(
            "<symbol id=\"band{level}\" viewBox=\"0 0 {} 1\" preserveAspectRatio=\"none\"><path class=\"locked\" d=\"{}\"/></symbol>",
            axis.count,
            bands(axis, &lane.bands(joining))
        )
    })
    .collect()
}

impl Drawn<'_> {
    /// The firm's lane and those of roots to which something happened. A cut has no mark of its own here, since each is a trip as well.
    fn lanes(&self) -> String {
        let shown: Vec<usize> = (0..self.day.lanes.len()).filter(|level| *level == 0 || self.day.lanes[*level].is_marked()).collect();
        let bottom = 4.0 + LANE * shown.len() as f64;
        let mut inner = self.axis.draw(4.0, bottom);
        let mut names = String::new();
        for (place, level) in shown.iter().enumerate() {
            inner.push_str(&self.lane(*level, 4.0 + LANE * place as f64));
            names.push_str(&format!("<b>{}</b>", escaped(&level_name(self.profile, *level))));
        }
        let idle = match self.day.lanes.len() - shown.len() {
            0 => String::new(),
            idle => format!("<p>To {} nothing happened but plain passes.</p>", counted(idle, "more root")),
        };
        format!(
            "<div class=\"chart lanes\"><div class=\"names\" aria-hidden=\"true\">{names}</div><svg class=\"plot\" height=\"{}\" role=\"img\" \
             aria-label=\"The firm and {} over time: when each was locked, and what happened to it.\">{inner}</svg></div>{idle}",
            bottom + 22.0,
            counted(shown.len() - 1, "root")
        )
    }

    /// A level's lane at a height.
    fn lane(&self, level: usize, top: f64) -> String {
        let middle = top + LANE / 2.0;
        let tallies: Vec<Tally> = self.lane_marks[level].iter().copied().filter(|tally| tally.kind != Kind::Cut).collect();
        let marks = marks(self.axis, &tallies, |kind| match kind {
            Kind::Trip => middle - 6.0,
            Kind::Rejected => middle + 8.0,
            _ => middle,
        });
        let base = format!("<line class=\"base\" x1=\"0\" y1=\"{middle}\" x2=\"100%\" y2=\"{middle}\"/>");
        [self.band(level, top + 3.0, LANE - 6.0), base, marks].concat()
    }

    /// The resets, unlocks and lockouts of each level, which all of its counts show.
    fn level_marks(&self) -> String {
        let of_level = |(level, tallies): (usize, &Vec<Tally>)| {
            let shared: Vec<Tally> =
                tallies.iter().copied().filter(|tally| matches!(tally.kind, Kind::Reset | Kind::Unlock | Kind::Lockout)).collect();
            format!("<g id=\"level{level}\">{}</g>", marks(self.axis, &shared, |_| BOTTOM))
        };
        self.lane_marks.iter().enumerate().map(of_level).collect()
    }
}
