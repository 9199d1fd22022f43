//! Something wrong in a line of a profile.

use mbrumzheg::Refusal;
use std::ops::Range;

/// Something wrong in a line.
#[derive(Clone, Debug, PartialEq, Eq)]
pub struct Fault {
    /// The refusal that it belongs to.
    pub refusal: Refusal,
    /// Which bytes of the line it is about; an empty range is the place where something is missing.
    pub span: Range<usize>,
    /// What is wrong and how to mend it.
    pub words: String,
}

impl Fault {
    pub fn new(refusal: Refusal, span: Range<usize>, words: impl Into<String>) -> Fault {
        Fault { refusal, span, words: words.into() }
    }
}

/// The lines of a text: each ends with LF, and the last may lack it.
pub fn lines(text: &[u8]) -> Vec<&[u8]> {
    match text.strip_suffix(b"\n").unwrap_or(text) {
        [] if text.is_empty() => Vec::new(),
        whole => whole.split(|byte| *byte == b'\n').collect(),
    }
}
