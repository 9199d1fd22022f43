//! Profile texts: good ones and damaged ones.

use super::damaged::damage;
use super::lines::{firm_line, name, root_line, root_names};
use super::random::Random;
use crate::profile::{MOST_BYTES, MOST_FIRM_RULES, MOST_ROOTS, MOST_RULES, MOST_UNIT_RULES};

/// A profile text, good three times in four.
pub fn profile(seed: u64) -> Vec<u8> {
    let mut random = Random::new(seed);
    let text = good_text(&mut random);
    if random.once_in(4) {
        damage(&mut random, text)
    } else {
        text
    }
}

/// A profile text that document 01 accepts.
pub fn valid_profile(seed: u64) -> Vec<u8> {
    good_text(&mut Random::new(seed))
}

/// A profile text of firm rules alone that document 01 accepts.
pub fn firm_profile(seed: u64) -> Vec<u8> {
    let mut random = Random::new(seed);
    few_rules(&mut random, Style::Mixed, 0, MOST_FIRM_RULES as u64).text(&mut random)
}

/// A profile text with some damage, which may still be a good one by chance.
pub fn damaged_profile(seed: u64) -> Vec<u8> {
    let mut random = Random::new(seed);
    let text = good_text(&mut random);
    damage(&mut random, text)
}

/// How large the limits and windows of a profile are.
#[derive(Clone, Copy, PartialEq)]
pub(super) enum Style {
    /// Any of the listed limits and windows.
    Mixed,
    /// Limits that are seldom reached and long windows, so that the log fills.
    Wide,
}

/// A profile text in the making.
struct Draft {
    style: Style,
    firm: Vec<u8>,
    roots: Vec<Vec<u8>>,
    /// How many rules cover each unit of each root.
    on_units: Vec<[usize; 4]>,
    firm_rules: usize,
    lines: Vec<Vec<u8>>,
}

impl Draft {
    fn new(random: &mut Random, style: Style, roots: usize) -> Draft {
        Draft {
            style,
            firm: name(random, 4),
            roots: root_names(random, roots),
            on_units: vec![[0; 4]; roots],
            firm_rules: 0,
            lines: Vec::new(),
        }
    }

    /// Adds a firm rule if there is room for one.
    fn add_firm_rule(&mut self, random: &mut Random) {
        if self.lines.len() < MOST_RULES && self.firm_rules < MOST_FIRM_RULES {
            self.firm_rules += 1;
            let line = firm_line(random, self.style, &self.firm);
            self.lines.push(line);
        }
    }

    /// Adds a rule of the root, for one unit or all four, if there is room for it.
    fn add_root_rule(&mut self, random: &mut Random, root: usize, unit: Option<usize>) {
        let units = unit.map_or(0..4, |one| one..one + 1);
        let full = units.clone().any(|one| self.on_units[root][one] >= MOST_UNIT_RULES);
        if self.lines.len() < MOST_RULES && !full {
            units.for_each(|one| self.on_units[root][one] += 1);
            let line = root_line(random, self.style, &self.firm, &self.roots[root], unit);
            self.lines.push(line);
        }
    }

    /// Adds so many rules, each for the firm or some root.
    fn add_rules(&mut self, random: &mut Random, rules: u64) {
        for _ in 0..rules {
            if self.roots.is_empty() || random.once_in(4) {
                self.add_firm_rule(random);
            } else {
                let root = random.below(self.roots.len() as u64) as usize;
                let unit = if random.once_in(2) { None } else { Some(random.below(4) as usize) };
                self.add_root_rule(random, root, unit);
            }
        }
    }

    /// The text, whose last line may lack its LF.
    fn text(&self, random: &mut Random) -> Vec<u8> {
        let mut text = self.lines.join(&b'\n');
        if !random.once_in(3) {
            text.push(b'\n');
        }
        text
    }
}

/// A good text of one of several shapes.
fn good_text(random: &mut Random) -> Vec<u8> {
    let draft = match random.below(16) {
        0..=4 => few_rules(random, Style::Mixed, 1, 3),
        5..=9 => few_rules(random, Style::Mixed, 4, 20),
        10 => few_rules(random, Style::Mixed, 0, 10),
        11 => all_roots(random),
        12 => full_root(random),
        13 => few_rules(random, Style::Mixed, 12, 300),
        _ => few_rules(random, Style::Wide, 2, 4),
    };
    if random.once_in(40) && draft.roots.len() < MOST_ROOTS {
        stretched(&draft, MOST_BYTES)
    } else {
        draft.text(random)
    }
}

/// At least one rule over a few roots.
fn few_rules(random: &mut Random, style: Style, most_roots: u64, most_rules: u64) -> Draft {
    let roots = if most_roots == 0 { 0 } else { random.between(1, most_roots) };
    let mut draft = Draft::new(random, style, roots as usize);
    let rules = random.between(1, most_rules);
    draft.add_rules(random, rules);
    draft
}

/// All 64 roots, then further rules.
fn all_roots(random: &mut Random) -> Draft {
    let mut draft = Draft::new(random, Style::Mixed, MOST_ROOTS);
    for root in 0..MOST_ROOTS {
        draft.add_root_rule(random, root, None);
    }
    let rules = random.below(250);
    draft.add_rules(random, rules);
    draft
}

/// One root with 24 rules of one unit each, and all firm rules.
fn full_root(random: &mut Random) -> Draft {
    let mut draft = Draft::new(random, Style::Mixed, 1);
    for place in 0..4 * MOST_UNIT_RULES {
        draft.add_root_rule(random, 0, Some(place % 4));
    }
    for _ in 0..MOST_FIRM_RULES {
        draft.add_firm_rule(random);
    }
    draft
}

/// The draft's text with a last rule of a new root whose free field makes it exactly so many bytes long.
fn stretched(draft: &Draft, bytes: usize) -> Vec<u8> {
    let kept = draft.lines.len().min(MOST_RULES - 1);
    let mut text = draft.lines[..kept].join(&b'\n');
    text.push(b'\n');
    text.extend_from_slice(&draft.firm);
    text.extend_from_slice(b",abs_vol,STRTCH,1000,");
    text.resize(bytes.max(text.len()), b'x');
    text
}
