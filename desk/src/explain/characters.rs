//! Characters that do not belong in a field, told by what they are.

use std::ops::Range;

const BOM: &[u8] = b"\xEF\xBB\xBF";

/// A character that does not belong, and the words for it.
pub struct Stranger {
    /// Where it stands in the field, together with those of its sort that follow it.
    pub span: Range<usize>,
    /// What it is, and what to do.
    pub words: String,
}

/// What the characters of a field may be.
#[derive(Clone, Copy, PartialEq, Eq)]
pub enum Alphabet {
    /// Capitals and digits.
    Name,
    /// Digits.
    Number,
}

impl Alphabet {
    fn has(self, byte: u8) -> bool {
        byte.is_ascii_digit() || (self == Alphabet::Name && byte.is_ascii_uppercase())
    }

    fn words(self) -> &'static str {
        match self {
            Alphabet::Name => "capitals and digits alone",
            Alphabet::Number => "digits alone",
        }
    }
}

/// The sorts of characters that people leave in a field.
#[derive(Clone, Copy, PartialEq, Eq)]
enum Sort {
    Mark,
    Utf16,
    Return,
    Blank,
    Small,
    Capital,
    Dollar,
    Point,
    Sign,
    Quote,
    Other,
}

/// The first stranger in a field that is called `name`.
pub fn stranger(field: &[u8], alphabet: Alphabet, name: &str) -> Option<Stranger> {
    let start = field.iter().position(|byte| !alphabet.has(*byte))?;
    let (sort, mut length) = sort_at(field, start);
    while sort != Sort::Other && start + length < field.len() && !alphabet.has(field[start + length]) {
        match sort_at(field, start + length) {
            (next, more) if next == sort => length += more,
            _ => break,
        }
    }
    let span = start..start + length;
    let words = words(sort, field, &span, alphabet, name);
    Some(Stranger { span, words })
}

/// What stands at a place, and how many bytes it has.
fn sort_at(field: &[u8], at: usize) -> (Sort, usize) {
    let rest = &field[at..];
    if rest.starts_with(BOM) {
        return (Sort::Mark, BOM.len());
    }
    match rest {
        [0xFF, 0xFE, ..] | [0xFE, 0xFF, ..] => return (Sort::Utf16, 2),
        [0, ..] => return (Sort::Utf16, 1),
        _ => {}
    }
    let sort = match rest.first().copied().unwrap_or(b'?') {
        b'\r' => Sort::Return,
        b' ' | b'\t' => Sort::Blank,
        b'a'..=b'z' => Sort::Small,
        b'A'..=b'Z' => Sort::Capital,
        b'$' => Sort::Dollar,
        b'.' => Sort::Point,
        b'+' | b'-' => Sort::Sign,
        b'"' | b'\'' => Sort::Quote,
        byte if byte.is_ascii() => Sort::Other,
        _ => return (Sort::Other, character_length(rest)),
    };
    (sort, 1)
}

/// How many bytes the character at the start of some bytes has; a byte that is no character stands for itself.
fn character_length(bytes: &[u8]) -> usize {
    (2..=4).find(|n| bytes.get(..*n).is_some_and(|piece| std::str::from_utf8(piece).is_ok())).unwrap_or(1)
}

fn words(sort: Sort, field: &[u8], span: &Range<usize>, alphabet: Alphabet, name: &str) -> String {
    let text = String::from_utf8_lossy(field);
    match sort {
        Sort::Mark => format!("a byte order mark (BOM) stands in the {name}; save the file as UTF-8 without one"),
        Sort::Utf16 => "the file is not plain text but UTF-16, or has zero bytes; save it as plain ASCII".to_string(),
        Sort::Return => format!("the {name} ends with CR, as lines from Windows do; save the file with LF alone"),
        Sort::Blank if span.start == 0 => format!("a blank stands before the {name}; take it out"),
        Sort::Blank if span.end == field.len() => format!("a blank stands after the {name}; take it out"),
        Sort::Blank => format!("a blank stands inside the {name}; take it out"),
        Sort::Small if alphabet == Alphabet::Name => {
            let capitals = text.trim().to_ascii_uppercase();
            let is_name = capitals.bytes().all(|byte| alphabet.has(byte));
            format!("small letters in the {name}; write {}", if is_name { &capitals } else { "capitals" })
        }
        Sort::Dollar => format!("a $ stands in the {name}; write the number alone"),
        Sort::Point if alphabet == Alphabet::Number => format!("a point stands in the {name}; write a whole number"),
        Sort::Sign if alphabet == Alphabet::Number => format!("a sign stands in the {name}; write the number alone"),
        Sort::Quote => format!("a quotation mark stands in the {name}; take it out"),
        Sort::Small | Sort::Capital => format!("letters in the {name}; it takes {}", alphabet.words()),
        Sort::Point | Sort::Sign | Sort::Other => format!("a character in the {name} that does not belong; it takes {}", alphabet.words()),
    }
}
