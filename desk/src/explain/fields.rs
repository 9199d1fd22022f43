//! A line taken apart at its commas.

use std::ops::Range;

/// The places of the fields.
pub const FIRM: usize = 0;
pub const KIND: usize = 1;
pub const ROOT: usize = 2;
pub const LIMIT: usize = 3;
pub const TIME: usize = 4;
pub const LEVEL: usize = 5;
pub const CALL_PUT: usize = 6;
pub const MONTH: usize = 7;

/// What the fields are called.
pub const NAMES: [&str; 8] = ["firm", "limit type", "root", "limit", "time limit", "firm level", "call/put", "month"];

/// The limit types.
pub const KINDS: [&str; 6] = ["rate_ntnl", "rate_vol", "rate_count", "abs_ntnl", "abs_vol", "abs_count"];

/// The fields of a line.
pub struct Fields<'a> {
    /// The whole line.
    pub line: &'a [u8],
    spans: Vec<Range<usize>>,
}

impl<'a> Fields<'a> {
    /// Takes a line apart.
    pub fn of(line: &'a [u8]) -> Fields<'a> {
        let mut spans = Vec::new();
        let mut start = 0;
        for field in line.split(|byte| *byte == b',') {
            spans.push(start..start + field.len());
            start += field.len() + 1;
        }
        Fields { line, spans }
    }

    /// How many there are.
    pub fn count(&self) -> usize {
        self.spans.len()
    }

    /// Where a field stands; one that is not there stands at the end, with nothing in it.
    pub fn span(&self, field: usize) -> Range<usize> {
        self.spans.get(field).cloned().unwrap_or(self.line.len()..self.line.len())
    }

    /// The bytes of a field.
    pub fn bytes(&self, field: usize) -> &'a [u8] {
        &self.line[self.span(field)]
    }

    /// A field as text.
    pub fn text(&self, field: usize) -> String {
        String::from_utf8_lossy(self.bytes(field)).into_owned()
    }

    /// The limit type, if it is one.
    pub fn kind(&self) -> Option<&'static str> {
        KINDS.into_iter().find(|kind| kind.as_bytes() == self.bytes(KIND))
    }

    /// Whether the limit type is an absolute one.
    pub fn is_absolute(&self) -> bool {
        self.kind().is_some_and(|kind| kind.starts_with("abs_"))
    }

    /// Whether the line is for the firm.
    pub fn is_firm_level(&self) -> bool {
        self.bytes(LEVEL) == b"T"
    }

    /// A limit and the field after it that look like one number with a comma inside.
    pub fn number_with_comma(&self) -> Option<(Range<usize>, String)> {
        let (first, second) = (self.text(LIMIT), self.text(TIME));
        let digits = |text: &str| text.bytes().all(|byte| byte.is_ascii_digit());
        let looks = (1..=3).contains(&first.len()) && second.len() == 3 && digits(&first) && digits(&second) && !first.starts_with('0');
        looks.then(|| (self.span(LIMIT).start..self.span(TIME).end, format!("{first}{second}")))
    }
}
