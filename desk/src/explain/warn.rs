//! What an accepted profile says that its writer may not have meant.

use crate::explain::fault::{lines, Fault};
use crate::explain::fields::{Fields, LEVEL, LIMIT, TIME};
use crate::explain::show::shown;
use crate::words::grouped;
use mbrumzheg::Refusal::Malformed;
use std::ops::Range;

const RETURN: &str = "CR ends this line; it is ignored here, and is a fault in other fields";

/// A line that the library takes and that may mean another thing than was meant.
#[derive(Clone, Debug, PartialEq, Eq)]
pub struct Warning {
    /// The line, from 1.
    pub line: usize,
    /// Which bytes of it.
    pub span: Range<usize>,
    /// What it means to the library.
    pub words: String,
}

/// The warnings on an accepted text, by line.
pub fn warnings(text: &[u8]) -> Vec<Warning> {
    let mut all = Vec::new();
    for (place, line) in lines(text).into_iter().enumerate() {
        let fields = Fields::of(line);
        let found = [time_limit(&fields), firm_level(&fields)];
        all.extend(found.into_iter().flatten().map(|(span, words)| Warning { line: place + 1, span, words }));
    }
    all
}

impl Warning {
    /// The line with a mark under what is meant, and the words.
    pub fn shown(&self, text: &[u8]) -> String {
        let line = lines(text).get(self.line - 1).copied().unwrap_or_default();
        let marked = Fault { refusal: Malformed, span: self.span.clone(), words: format!("warning: {}", self.words) };
        shown(self.line, line, &[marked]).join("\n")
    }
}

/// A time limit that an absolute rule ignores, or that a rate rule raises to 100 ms.
fn time_limit(fields: &Fields) -> Option<(Range<usize>, String)> {
    let typed = fields.text(TIME);
    let value = typed.parse::<u64>().unwrap_or(0);
    let limit = fields.text(LIMIT);
    let comma = fields.number_with_comma().map(|(span, number)| (span, format!("; a comma inside a number? then write {number}")));
    let (span, advice) = comma.unwrap_or((fields.span(TIME), String::new()));
    if fields.is_absolute() {
        if typed == "\r" {
            return Some((fields.span(TIME), RETURN.to_string()));
        }
        let is_nothing = typed.is_empty() || (value == 0 && typed.len() == 1);
        let words = format!("the limit is {limit}: an absolute rule has no time limit, and this one is ignored{advice}");
        return (!is_nothing).then_some((span, words));
    }
    let has = if typed.is_empty() { "no time limit".to_string() } else { format!("a time limit of {} ms", grouped(value)) };
    let words = format!("{has}, so the window is 100 ms, the least{advice}");
    (value < 100).then_some((span, words))
}

/// Something in the firm level field that is not T, and so means nothing.
fn firm_level(fields: &Fields) -> Option<(Range<usize>, String)> {
    let typed = fields.text(LEVEL);
    let words = match typed.as_str() {
        "" | "T" => return None,
        "\r" => RETURN.to_string(),
        _ => "the firm level is not T, so it means nothing, and the rule is its root's".to_string(),
    };
    Some((fields.span(LEVEL), words))
}
