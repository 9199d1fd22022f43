//! A table of rules in 80 columns: what does not fit is left out, the least needed first.

const WIDTH: usize = 80;
const GAP: usize = 2;
/// The share in percent, with the blank before it.
const SHARE: usize = 5;
const LONGEST_BAR: usize = 20;

/// What stands in a row, by column.
pub const HEADS: [&str; 7] = ["rule", "type", "of", "limit", "used", "left", "[Remaining]"];
const TYPE: usize = 1;
const USED: usize = 4;

/// A row of the table.
pub struct Row {
    /// What stands in the columns.
    pub cells: [String; 7],
    /// How much is used, of how much.
    pub used: (u64, u64),
}

/// What a table leaves out, and the shortest bar that it puts up with.
struct Layout {
    without: &'static [usize],
    bar: usize,
}

const LAYOUTS: [Layout; 4] = [
    Layout { without: &[], bar: 6 },
    Layout { without: &[USED], bar: 4 },
    Layout { without: &[USED], bar: 0 },
    Layout { without: &[USED, TYPE], bar: 0 },
];

/// The table under its heads, with a word beside them.
pub fn table(rows: &[Row], word: &str) -> Vec<String> {
    let widths: [usize; 7] = std::array::from_fn(|column| {
        rows.iter().map(|row| row.cells[column].chars().count()).chain([HEADS[column].len()]).max().unwrap_or(0)
    });
    let fits = |layout: &&Layout| layout.width(&widths) + GAP + brackets(layout.bar) + SHARE <= WIDTH;
    let Some(layout) = LAYOUTS.iter().find(fits) else {
        return std::iter::once(word.to_string()).chain(rows.iter().flat_map(stacked)).collect();
    };
    let room = WIDTH - layout.width(&widths) - GAP - SHARE;
    let bar = if layout.bar == 0 { 0 } else { (room - 2).min(LONGEST_BAR) };
    let heads = layout.line(&HEADS.map(str::to_string), &widths);
    let mut lines = if heads.len() + GAP + word.len() <= WIDTH { vec![format!("{heads}  {word}")] } else { vec![word.to_string(), heads] };
    lines.extend(rows.iter().map(|row| format!("{}  {}", layout.line(&row.cells, &widths), gauge(row.used, bar))));
    lines
}

/// A bar's length with its brackets.
fn brackets(bar: usize) -> usize {
    if bar == 0 {
        0
    } else {
        bar + 2
    }
}

impl Layout {
    fn columns(&self) -> impl Iterator<Item = usize> + '_ {
        (0..HEADS.len()).filter(|column| !self.without.contains(column))
    }

    fn width(&self, widths: &[usize; 7]) -> usize {
        self.columns().map(|column| widths[column] + GAP).sum::<usize>() - GAP
    }

    /// Names to the left of their column, numbers to the right.
    fn line(&self, cells: &[String; 7], widths: &[usize; 7]) -> String {
        let cell = |column: usize| {
            let (text, width) = (&cells[column], widths[column]);
            match HEADS[column] {
                "type" | "of" | "limit" => format!("{text:<width$}"),
                _ => format!("{text:>width$}"),
            }
        };
        self.columns().map(cell).collect::<Vec<_>>().join("  ")
    }
}

/// A row in two lines, for numbers that fit no table.
fn stacked(row: &Row) -> [String; 2] {
    let [number, kind, scope, limit, _, left, remaining] = &row.cells;
    [format!("rule {number:<3}  {kind} {limit} of {scope}"), format!("          left {left}  {remaining}  {}", gauge(row.used, 10))]
}

/// A bar of a length, if it has one, and the share in percent, which what came back from away may bring past 100.
fn gauge((used, limit): (u64, u64), length: usize) -> String {
    let share = match share(used, limit, 100) {
        share @ ..=999 => format!("{share:>3}%"),
        _ => ">999%".to_string(),
    };
    if length == 0 {
        return share;
    }
    format!("{}{share:>5}", bar(used, limit, length))
}

/// A bar whose ends are honest: full only at the limit, empty only at nothing.
fn bar(used: u64, limit: u64, length: usize) -> String {
    let full = match share(used, limit, length as u64) {
        0 if used > 0 => 1,
        n => n.min(length as u64),
    } as usize;
    format!("[{}{}]", "#".repeat(full), ".".repeat(length - full))
}

/// How many of so many parts are used, rounded down.
pub fn share(used: u64, limit: u64, parts: u64) -> u64 {
    (u128::from(used) * u128::from(parts) / u128::from(limit.max(1))) as u64
}
