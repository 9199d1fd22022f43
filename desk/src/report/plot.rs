//! The use of a limit over time as a path. The path's own numbers are the amounts, so that what is drawn is also what the page's script reads out.

use crate::profile::Rule;
use crate::replay::scale::Curve;

/// A curve as the page has it.
pub struct Plot {
    /// The path: to the right by buckets, up by amounts in units.
    pub path: String,
    /// How much a step up of 1 is.
    pub unit: u64,
    /// The part of the plane that is seen.
    pub view: String,
}

/// Draws a curve over so many buckets. The path begins and ends outside of what is seen, so that its area has an edge at nothing and its line has none.
pub fn plot(rule: &Rule, curve: &Curve, count: u64) -> Plot {
    let unit = common_unit(curve);
    let mut pen = Pen { path: "M-9 0".to_string(), x: 0, used: 0, unit, last: ' ' };
    pen.rise(curve.start);
    pen.forward(9);
    pen.x = 0;
    for cell in &curve.cells {
        pen.forward(cell.at - pen.x);
        // the nearer end of the range first, then the other, then where it ends
        let ends =
            if cell.last.abs_diff(cell.least) < cell.last.abs_diff(cell.most) { [cell.most, cell.least] } else { [cell.least, cell.most] };
        for amount in ends.into_iter().chain([cell.last]) {
            pen.rise(amount);
        }
    }
    pen.forward(count.saturating_sub(pen.x) + 9);
    pen.rise(0);
    let limit = rule.limit.max(1) as f64 / unit as f64;
    Plot { path: pen.path, unit, view: format!("0 {} {count} {}", short(-1.03 * limit), short(1.06 * limit)) }
}

/// The buckets of a curve in which more than a limit is used, as a path over so many buckets, one high.
pub fn past(curve: &Curve, limit: u64, count: u64) -> String {
    let mut path = String::new();
    let mut put = |from: u64, to: u64| path.push_str(&format!("M{from} 0h{width}v1h-{width}z", width = to - from));
    let mut since = (curve.start > limit).then_some(0);
    for cell in &curve.cells {
        if cell.most > limit {
            since.get_or_insert(cell.at);
        }
        if let Some(from) = since.take_if(|_| cell.last <= limit) {
            put(from, cell.at + 1);
        }
    }
    if let Some(from) = since {
        put(from, count.max(from + 1));
    }
    path
}

/// The greatest amount of which all of a curve's amounts are multiples.
fn common_unit(curve: &Curve) -> u64 {
    let amounts = curve.cells.iter().flat_map(|cell| [cell.least, cell.most, cell.last]);
    amounts.fold(curve.start, divisor).max(1)
}

fn divisor(a: u64, b: u64) -> u64 {
    if b == 0 {
        a
    } else {
        divisor(b, a % b)
    }
}

/// A number of the view, no longer than it has to be.
fn short(number: f64) -> String {
    format!("{number:.3}").trim_end_matches('0').trim_end_matches('.').to_string()
}

/// Writes a path, each number as short as it can be.
struct Pen {
    path: String,
    x: u64,
    used: u64,
    unit: u64,
    last: char,
}

impl Pen {
    fn forward(&mut self, buckets: u64) {
        if buckets > 0 {
            self.put('h', &buckets.to_string());
            self.x += buckets;
        }
    }

    /// Up is less in a picture.
    fn rise(&mut self, used: u64) {
        if used != self.used {
            let by = used.abs_diff(self.used) / self.unit;
            let text = if used > self.used { format!("-{by}") } else { by.to_string() };
            self.put('v', &text);
            self.used = used;
        }
    }

    /// The letter of a step is left out where the step before had it too.
    fn put(&mut self, letter: char, number: &str) {
        match (self.last == letter, number.starts_with('-')) {
            (false, _) => self.path.push(letter),
            (true, false) => self.path.push(' '),
            (true, true) => {}
        }
        self.path.push_str(number);
        self.last = letter;
    }
}

#[cfg(test)]
mod tests {
    use super::{past, plot};
    use crate::profile::Profile;
    use crate::replay::scale::{Cell, Curve};

    #[test]
    fn a_curve_is_drawn_by_its_amounts() {
        let profile = Profile::of_accepted(b"ABCD,rate_vol,XYZ,500,1000");
        let cells = vec![Cell { at: 0, least: 450, most: 450, last: 450 }, Cell { at: 3, least: 100, most: 500, last: 150 }];
        let curve = Curve { start: 0, cells, peak: (3, 500) };
        let drawn = plot(&profile.rules[0], &curve, 10);
        assert_eq!((drawn.unit, drawn.path.as_str(), drawn.view.as_str()), (50, "M-9 0h9v-9h3v-1 8-1h16v3", "0 -10.3 10 10.6"));
        assert_eq!(
            (past(&curve, 500, 10), past(&curve, 499, 10), past(&curve, 120, 10)),
            ("".into(), "M3 0h1v1h-1z".into(), "M0 0h10v1h-10z".into())
        );
        let before = Curve { start: 600, cells: vec![Cell { at: 2, least: 10, most: 600, last: 10 }], peak: (0, 600) };
        assert_eq!(
            (past(&before, 500, 10), past(&Curve { start: 600, ..Curve::default() }, 500, 7)),
            ("M0 0h3v1h-3z".into(), "M0 0h7v1h-7z".into())
        );
        let flat = plot(&profile.rules[0], &Curve { start: 7, ..Curve::default() }, 4);
        assert_eq!((flat.unit, flat.path.as_str()), (7, "M-9 0v-1h9 13v1"));
    }
}
