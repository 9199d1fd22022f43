//! What every picture on the page shares: the time axis, the lines at shares of a limit, and the shape of each mark. Places along the axis are shares of
//! its width, so that a picture is drawn anew for every width of the page, and nothing in it is scaled but the curve.

use crate::replay::marks::{Kind, Tally};
use crate::replay::scale::Scale;
use crate::words::grouped;

/// Where a rule's picture has its limit and its nothing, in pixels from its top.
pub const TOP: f64 = 22.0;
/// Nothing used.
pub const BOTTOM: f64 = 106.0;
/// The height of a rule's picture.
pub const HEIGHT: f64 = 128.0;

/// The time axis.
#[derive(Clone, Copy)]
pub struct Axis {
    /// The buckets.
    pub scale: Scale,
    /// How many of them are shown.
    pub count: u64,
}

/// Distances between ticks, in milliseconds.
const STEPS: [u64; 25] = [
    1, 2, 5, 10, 20, 50, 100, 200, 500, 1_000, 2_000, 5_000, 10_000, 15_000, 30_000, 60_000, 120_000, 300_000, 600_000, 900_000, 1_800_000,
    3_600_000, 7_200_000, 14_400_000, 21_600_000,
];

impl Axis {
    /// The axis from a scale's begin to a time.
    pub fn to(scale: Scale, last: u64) -> Axis {
        Axis { scale, count: scale.count(last) }
    }

    fn length(&self) -> u64 {
        self.count * self.scale.width
    }

    /// Where a time stands, in percent of the axis.
    pub fn percent(&self, ms: u64) -> f64 {
        let passed = ms.saturating_sub(self.scale.first).min(self.length());
        100.0 * passed as f64 / self.length() as f64
    }

    /// At most nine times with their labels.
    fn ticks(&self) -> Vec<(u64, String)> {
        let (first, last) = (self.scale.first, self.scale.first + self.length());
        let step = STEPS.iter().copied().find(|step| (last - first) / step <= 8).unwrap_or(21_600_000);
        let from = first.div_ceil(step);
        (from..=last / step).map(|n| (n * step, label(n * step, step, last))).collect()
    }

    /// The ticks as lines from one height to another, and labels below. Narrow pages show every second or every fourth label.
    pub fn draw(&self, top: f64, bottom: f64) -> String {
        let mut text = String::new();
        for (place, (ms, label)) in self.ticks().iter().enumerate() {
            let x = self.percent(*ms);
            let anchor = match x {
                x if x < 4.0 => "start",
                x if x > 96.0 => "end",
                _ => "middle",
            };
            let class = ["tick", "tick odd", "tick second", "tick odd"][place % 4];
            text.push_str(&format!("<line class=\"grid\" x1=\"{x:.2}%\" y1=\"{top}\" x2=\"{x:.2}%\" y2=\"{bottom}\"/>"));
            text.push_str(&format!(
                "<text class=\"{class}\" x=\"{x:.2}%\" y=\"{}\" text-anchor=\"{anchor}\">{label}</text>",
                bottom + 17.0
            ));
        }
        text
    }
}

/// A tick's label: milliseconds at the bench, the clock's face otherwise, no finer than the ticks are.
fn label(ms: u64, step: u64, last: u64) -> String {
    if last < 10_000 {
        return format!("{ms} ms");
    }
    let (hours, minutes, seconds) = (ms / 3_600_000, ms / 60_000 % 60, ms / 1_000 % 60);
    if step % 60_000 == 0 {
        format!("{hours:02}:{minutes:02}")
    } else if step % 1_000 == 0 {
        format!("{hours:02}:{minutes:02}:{seconds:02}")
    } else {
        format!("{hours:02}:{minutes:02}:{seconds:02}.{:03}", ms % 1_000)
    }
}

/// The lines at the limit, at 80 and 50 percent of it, and at nothing, each with its name to the left of the picture.
pub fn levels() -> String {
    let line = |class: &str, share: f64, name: &str| {
        let y = BOTTOM - (BOTTOM - TOP) * share;
        format!(
            "<line class=\"{class}\" x1=\"0\" y1=\"{y:.1}\" x2=\"100%\" y2=\"{y:.1}\"/><text class=\"tick\" x=\"-8\" y=\"{:.1}\" text-anchor=\"end\">{name}</text>",
            y + 4.0
        )
    };
    [line("limit", 1.0, "limit"), line("share", 0.8, "80%"), line("share", 0.5, "50%"), line("base", 0.0, "0")].concat()
}

/// A mark's shape around a place; kinds differ by shape as well as by colour.
pub fn shape(kind: Kind) -> &'static str {
    match kind {
        Kind::Cut => "<path class=\"cut\" d=\"M-5.5 -4.5h11l-5.5 9.5z\"/>",
        Kind::Trip => "<path class=\"trip\" d=\"M-4.5 -4.5l9 9m0 -9l-9 9\"/>",
        Kind::Reset => "<circle class=\"reset\" r=\"4.5\"/>",
        Kind::Unlock => "<path class=\"reset\" d=\"M0 -5.5l5.5 5.5l-5.5 5.5l-5.5 -5.5z\"/>",
        Kind::Back => "<path class=\"back\" d=\"M5 -5v10l-9.5 -5z\"/>",
        Kind::Lockout => "<rect class=\"lockout\" x=\"-4.5\" y=\"-4.5\" width=\"9\" height=\"9\"/>",
        Kind::Rejected => "<line class=\"rejected\" y1=\"-4\" y2=\"4\"/>",
    }
}

/// The name by which a kind's shape is used.
pub fn shape_id(kind: Kind) -> &'static str {
    match kind {
        Kind::Cut => "cut",
        Kind::Trip => "trip",
        Kind::Reset => "reset",
        Kind::Unlock => "unlock",
        Kind::Back => "back",
        Kind::Lockout => "lockout",
        Kind::Rejected => "rejected",
    }
}

/// Marks at their times, each at the height of its kind, with how many they are and in which records as their title.
pub fn marks(axis: &Axis, tallies: &[Tally], height: impl Fn(Kind) -> f64) -> String {
    let mut text = String::new();
    for tally in tallies {
        let (first, last) = tally.places;
        let places = if first == last {
            format!("record {}", grouped(first as u64))
        } else {
            format!("records {} to {}", grouped(first as u64), grouped(last as u64))
        };
        text.push_str(&format!(
            "<use href=\"#{}\" x=\"{:.2}%\" y=\"{}\"><title>{}, {places}</title></use>",
            shape_id(tally.kind),
            axis.percent(tally.ms),
            height(tally.kind),
            tally.kind.counted(tally.count)
        ));
    }
    text
}

/// Stretches of time as a path over an axis of so many buckets, one high.
pub fn bands(axis: &Axis, stretches: &[(u64, u64)]) -> String {
    let mut text = String::new();
    for (from, to) in stretches {
        let (first, last) = (axis.scale.bucket(*from), axis.scale.bucket(*to));
        let width = (last - first).max(1);
        text.push_str(&format!("M{first} 0h{width}v1h-{width}z"));
    }
    text
}

/// Draws ever coarser pictures until all of them together are short enough.
pub fn within<T>(most: usize, draw: impl Fn(u32) -> Vec<T>, length: impl Fn(&T) -> usize) -> (u32, Vec<T>) {
    let mut coarseness = 0;
    loop {
        let drawn = draw(coarseness);
        if coarseness >= 11 || drawn.iter().map(&length).sum::<usize>() <= most {
            return (coarseness, drawn);
        }
        coarseness += 1;
    }
}

/// A text that may stand in a page.
pub fn escaped(text: &str) -> String {
    text.replace('&', "&amp;").replace('<', "&lt;").replace('>', "&gt;").replace('"', "&quot;")
}
