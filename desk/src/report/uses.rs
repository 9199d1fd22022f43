//! The use of each limit over time: a section for every rule, in it a picture for each of its counts that was used.

use crate::profile::{Count, Measure};
use crate::replay::day::Day;
use crate::replay::marks::Kind;
use crate::replay::scale::Curve;
use crate::report::chart::{escaped, marks, Axis, BOTTOM, HEIGHT, TOP};
use crate::report::drawn::Drawn;
use crate::report::figures::{face, CountFigures};
use crate::report::plot::{past, plot, Plot};
use crate::words;

/// What is drawn of a count: its use, what came back from away of it, and when it was past its limit.
pub struct Plots {
    all: Plot,
    away: Option<Plot>,
    past: String,
}

impl Plots {
    /// How many bytes the paths take.
    pub fn length(&self) -> usize {
        self.all.path.len() + self.away.as_ref().map_or(0, |plot| plot.path.len()) + self.past.len()
    }
}

/// Draws the counts that were used, with buckets that are so often twice as wide.
pub fn plots(used: &[CountFigures], day: &Day, axis: &Axis, halvings: u32) -> Vec<Plots> {
    let count = axis.count.div_ceil(1 << halvings);
    let coarser = |curve: &Curve| (0..halvings).fold(curve.clone(), |before, _| before.halved());
    let each = used.iter().filter_map(|figures| {
        let (rule, place) = (figures.rule, figures.count.place);
        let (all, away) = (coarser(day.curves.counts.get(place)?), coarser(day.curves.away.get(place)?));
        let came_back = away.start > 0 || !away.cells.is_empty();
        Some(Plots { past: past(&all, rule.limit, count), away: came_back.then(|| plot(rule, &away, count)), all: plot(rule, &all, count) })
    });
    each.collect()
}

impl Drawn<'_> {
    /// A rule with the pictures of its counts that were used, one or up to four.
    pub fn rule(&self, counts: &[(&CountFigures, &Plots)]) -> String {
        let Some((CountFigures { rule, .. }, _)) = counts.first() else { return String::new() };
        let pictures: String = counts.iter().map(|(figures, plot)| self.count(figures, plot)).collect();
        let is_drawn = |count: &&Count| counts.iter().any(|(figures, _)| figures.count.place == count.place);
        let idle: Vec<&str> =
            Count::all_of(rule).iter().filter(|count| !is_drawn(count)).filter_map(Count::unit).map(words::unit).collect();
        let idle = if idle.is_empty() { String::new() } else { format!("<p>Not used: {}.</p>", idle.join(", ")) };
        let words = escaped(&self.profile.rule_words(rule));
        format!("<section class=\"rule\" id=\"rule{}\"><h3>{words}</h3>{pictures}{idle}</section>", rule.number)
    }

    /// The use of a rule's limit over time, by one of its counts.
    fn count(&self, figures: &CountFigures, plots: &Plots) -> String {
        let CountFigures { rule, count, .. } = figures;
        let head = match count.unit().filter(|_| count.is_one_of_four) {
            Some(unit) => format!(" id=\"{}\"><h4>{}</h4>", count.id(), words::unit(unit)),
            None => ">".to_string(),
        };
        let words = escaped(&self.profile.count_words(count.place));
        let money = if rule.measure == Measure::Notional { " data-money" } else { "" };
        let plot = &plots.all;
        let (away_unit, away) = match &plots.away {
            Some(own) => (format!(" data-away-unit=\"{}\"", own.unit), self.curve("away", own)),
            None => Default::default(),
        };
        format!(
            "<div class=\"count\"{head}<p>{}</p><div class=\"chart\"><svg class=\"plot\" height=\"{HEIGHT}\" role=\"img\" tabindex=\"0\" \
             aria-label=\"Use of {words}\" data-limit=\"{}\" data-unit=\"{}\"{away_unit}{money}><use href=\"#ticks\"/>{}{}{away}{}<use href=\"#levels\"/>\
             <use href=\"#level{}\"/>{}</svg></div></div>",
            summary(figures),
            rule.limit,
            plot.unit,
            self.band(count.level(), TOP, BOTTOM - TOP),
            self.curve("use", plot),
            past_band(&plots.past, plot),
            count.level(),
            marks(self.axis, &self.own_marks[count.place], height_of),
        )
    }

    /// A curve from nothing to a little above the limit.
    fn curve(&self, class: &str, plot: &Plot) -> String {
        format!(
            "<svg class=\"curve\" y=\"{:.2}\" width=\"100%\" height=\"{:.2}\" viewBox=\"{}\" preserveAspectRatio=\"none\"><path class=\"{class}\" d=\"{}\"/></svg>",
            TOP - (BOTTOM - TOP) * 0.03,
            (BOTTOM - TOP) * 1.06,
            plot.view,
            plot.path
        )
    }
}

/// When more than the limit was used: a band just above it.
fn past_band(path: &str, plot: &Plot) -> String {
    if path.is_empty() {
        return String::new();
    }
    let count = plot.view.split(' ').nth(2).unwrap_or("1");
    format!(
        "<svg y=\"{}\" width=\"100%\" height=\"5\" viewBox=\"0 0 {count} 1\" preserveAspectRatio=\"none\"><path class=\"past\" d=\"{path}\"/></svg>",
        TOP - 7.0
    )
}

/// Where a mark of a count stands: cuts above the limit, trips at it, what came back at the bottom.
fn height_of(kind: Kind) -> f64 {
    match kind {
        Kind::Cut => 8.0,
        Kind::Back => BOTTOM,
        _ => TOP,
    }
}

/// The count's day in a sentence.
fn summary(figures: &CountFigures) -> String {
    let mut text = match figures.most_at {
        None => "Nothing used.".to_string(),
        Some(ms) => {
            format!("Most used: {} ({} of the limit), first at {}.", figures.rule.amount(figures.most), figures.share_words(), face(ms))
        }
    };
    if figures.past() > 0 {
        text.push_str(&format!(" Past the limit by up to {}.", figures.rule.amount(figures.past())));
    }
    if figures.back > 0 {
        text.push_str(&format!(" {} came back from away.", figures.rule.amount(figures.back)));
    }
    for (count, kind) in [(figures.cuts, Kind::Cut), (figures.trips, Kind::Trip)] {
        if count > 0 {
            text.push_str(&format!(" {}.", kind.counted(count)));
        }
    }
    text
}
