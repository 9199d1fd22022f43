//! What an order's reset does before the order is judged: whose counts it zeroes, and whose trip and lockout it lifts.

use crate::profile::level;
use crate::words::wrapped;
use mbrumzheg::{Reset, Root};

/// The levels that a reset touches: the order's root, the firm, both or none.
#[derive(Clone, Copy, Debug, PartialEq, Eq)]
pub struct Levels {
    /// The order's root.
    pub root: bool,
    /// The firm.
    pub firm: bool,
}

impl Levels {
    const NONE: Levels = Levels { root: false, firm: false };
    const ROOT: Levels = Levels { root: true, firm: false };
    const FIRM: Levels = Levels { root: false, firm: true };
    const BOTH: Levels = Levels { root: true, firm: true };

    /// Their numbers, for an order on a root.
    pub fn of(self, root: Root) -> Vec<usize> {
        let numbers = [(self.root, level(root, false)), (self.firm, level(root, true))];
        numbers.into_iter().filter_map(|(is_touched, number)| is_touched.then_some(number)).collect()
    }

    /// Their names, joined by "and".
    fn named(self, root: &str, firm: &str) -> String {
        let names = [(self.root, root), (self.firm, firm)];
        names.into_iter().filter_map(|(is_touched, name)| is_touched.then_some(name)).collect::<Vec<_>>().join(" and ")
    }
}

/// The levels whose counts a reset zeroes: the totals of their rules, on every unit, and what their windows hold.
pub fn zeroes(reset: Reset) -> Levels {
    match reset {
        Reset::Symbol => Levels::ROOT,
        Reset::Firm => Levels::FIRM,
        Reset::Both => Levels::BOTH,
        Reset::None | Reset::T | Reset::E | Reset::TE => Levels::NONE,
    }
}

/// The levels whose trip and lockout a reset lifts.
pub fn lifts(reset: Reset) -> Levels {
    match reset {
        Reset::None => Levels::NONE,
        Reset::Symbol | Reset::T => Levels::ROOT,
        Reset::Firm | Reset::E => Levels::FIRM,
        Reset::Both | Reset::TE => Levels::BOTH,
    }
}

/// What a reset has done to a root and the firm, by their names; nothing for none.
pub fn done(reset: Reset, root: &str, firm: &str) -> String {
    let whom = lifts(reset).named(root, firm);
    match (lifts(reset), zeroes(reset)) {
        (Levels::NONE, _) => String::new(),
        (Levels::BOTH, Levels::NONE) => format!("{whom} unlocked, their counts stay; "),
        (_, Levels::NONE) => format!("{whom} unlocked, its counts stay; "),
        _ => format!("{whom} reset; "),
    }
}

/// What a reset does, for a table: its word, whose counts it zeroes, whose trip and lockout it lifts.
pub struct Row {
    /// The word that asks for it.
    pub word: String,
    /// Whose counts it zeroes.
    pub zeroes: String,
    /// Whose trip and lockout it lifts.
    pub lifts: String,
}

/// The heads of that table.
pub const HEADS: [&str; 3] = ["reset", "zeroes the counts of", "lifts trip and lockout of"];

/// What is to be known of resets besides.
pub const REMARK: &str =
    "A reset comes before the order's verdict. A root's counts are those of its rules on all four units. What t, e and te leave \
                          counted counts on: a limit of which nothing is left cuts the next offer to 0 and trips again.";

/// Every reset but none.
pub fn rows() -> impl Iterator<Item = Row> {
    let named = |levels: Levels| if levels == Levels::NONE { "nothing".to_string() } else { levels.named("the root", "the firm") };
    let asked = Reset::ALL.into_iter().filter(|reset| *reset != Reset::None);
    asked.map(move |reset| Row { word: reset.to_string(), zeroes: named(zeroes(reset)), lifts: named(lifts(reset)) })
}

/// The table and the remark, for a terminal.
pub fn help(width: usize) -> String {
    let line = |[word, zeroes, lifts]: [&str; 3]| format!("{word:<8}{zeroes:<24}{lifts}");
    let rows = rows().map(|row| line([&row.word, &row.zeroes, &row.lifts]));
    std::iter::once(line(HEADS)).chain(rows).chain(wrapped(REMARK, width)).collect::<Vec<_>>().join("\n")
}

#[cfg(test)]
mod tests {
    use super::{done, help, lifts, rows, zeroes, Levels};
    use mbrumzheg::{Reset, Root};

    #[test]
    fn what_is_zeroed_is_lifted_too_and_t_and_e_zero_nothing() {
        for reset in Reset::ALL {
            let (zeroed, lifted) = (zeroes(reset), lifts(reset));
            assert!(zeroed == Levels::NONE || zeroed == lifted, "{reset}");
            assert_eq!(zeroed == Levels::NONE, ![Reset::Symbol, Reset::Firm, Reset::Both].contains(&reset), "{reset}");
        }
        let root = Root::new(4).expect("a root");
        assert_eq!([Reset::T, Reset::E, Reset::TE].map(|reset| lifts(reset).of(root)), [vec![5], vec![0], vec![5, 0]]);
    }

    #[test]
    fn what_was_done_is_said() {
        let said = Reset::ALL.map(|reset| done(reset, "root XYZ", "firm ABCD"));
        let wanted = [
            "",
            "root XYZ reset; ",
            "firm ABCD reset; ",
            "root XYZ and firm ABCD reset; ",
            "root XYZ unlocked, its counts stay; ",
            "firm ABCD unlocked, its counts stay; ",
            "root XYZ and firm ABCD unlocked, their counts stay; ",
        ];
        assert_eq!(said, wanted);
    }

    #[test]
    fn the_table_has_every_reset() {
        let all: Vec<String> = rows().map(|row| format!("{}: {}, {}", row.word, row.zeroes, row.lifts)).collect();
        assert_eq!(all.len(), 6);
        assert_eq!((all[2].as_str(), all[3].as_str()), ("both: the root and the firm, the root and the firm", "t: nothing, the root"));
        assert!(
            help(80).lines().all(|line| line.len() <= 80) && help(80).contains("te      nothing                 the root and the firm")
        );
    }
}
