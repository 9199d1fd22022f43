//! Lines that are malformed: the number of fields, a field's length or characters, or an unknown type.

use crate::explain::characters::{stranger, Alphabet};
use crate::explain::fault::Fault;
use crate::explain::fields::{Fields, CALL_PUT, FIRM, KIND, KINDS, LIMIT, MONTH, NAMES, ROOT, TIME};
use crate::words::nearest;
use mbrumzheg::Refusal::Malformed;
use std::ops::Range;

const LONGEST_NUMBER: usize = 12;

/// Why a line is malformed; nothing if it is not.
pub fn faults(fields: &Fields) -> Vec<Fault> {
    if fields.line.is_empty() {
        return vec![Fault::new(Malformed, 0..0, "the line is empty; take it out")];
    }
    if is_heading(fields) {
        return vec![Fault::new(Malformed, 0..fields.line.len(), "a heading? a profile has rules alone; take the line out")];
    }
    let count = fields.count();
    let mut found: Vec<Fault> = number_of_fields(fields).into_iter().collect();
    let there = |field: usize| field < count;
    found.extend(name(fields, FIRM, 1, 4));
    found.extend(kind(fields).filter(|_| there(KIND)));
    found.extend(name(fields, ROOT, 0, 6));
    found.extend(number(fields, LIMIT).filter(|_| there(LIMIT)));
    if fields.kind().is_some() && !fields.is_absolute() && !fields.bytes(TIME).is_empty() {
        found.extend(number(fields, TIME));
    }
    found.extend(letter(fields, CALL_PUT, "CP", "C for calls, P for puts, or nothing"));
    found.extend(letter(fields, MONTH, "FT", "F for the front two months, T for trailing ones, or nothing"));
    found
}

/// Whether a line has words where every rule has a type and a number.
fn is_heading(fields: &Fields) -> bool {
    let is_word = |field: usize| {
        let bytes = fields.bytes(field);
        !bytes.is_empty() && bytes.iter().all(|byte| byte.is_ascii_alphabetic() || matches!(byte, b' ' | b'_' | b'-'))
    };
    fields.count() >= 4 && fields.kind().is_none() && [FIRM, KIND, ROOT, LIMIT].into_iter().all(is_word)
}

fn number_of_fields(fields: &Fields) -> Option<Fault> {
    let count = fields.count();
    if count < 4 {
        let plural = if count == 1 { "" } else { "s" };
        let words = format!("{count} field{plural}, where a rule has 4 to 8: {}{}", NAMES.join(", "), parted_otherwise(fields.line));
        return Some(Fault::new(Malformed, 0..fields.line.len(), words));
    }
    if count <= NAMES.len() {
        return None;
    }
    if let Some((span, number)) = fields.number_with_comma() {
        let words = format!("{count} fields, and 8 are the most; a comma inside a number? then write {number}");
        return Some(Fault::new(Malformed, span, words));
    }
    let after = fields.span(NAMES.len() - 1).end..fields.line.len();
    Some(Fault::new(Malformed, after, format!("{count} fields, and 8 are the most; take out what follows the month, its comma too")))
}

/// A word on lines that are no lines of fields.
fn parted_otherwise(line: &[u8]) -> &'static str {
    let has = |byte: u8| line.iter().filter(|own| **own == byte).count() >= 2;
    if line.starts_with(b"#") || line.starts_with(b"//") {
        "; a profile has no comments"
    } else if line.iter().all(u8::is_ascii_whitespace) {
        "; the line has blanks alone: take it out"
    } else if [b';', b'\t', b'|'].into_iter().any(has) {
        "; commas part them, and nothing else"
    } else {
        ""
    }
}

/// A part of a field as a part of its line.
fn within(fields: &Fields, field: usize, part: Range<usize>) -> Range<usize> {
    let start = fields.span(field).start;
    start + part.start..start + part.end
}

fn name(fields: &Fields, field: usize, least: usize, most: usize) -> Option<Fault> {
    let bytes = fields.bytes(field);
    if let Some(stranger) = stranger(bytes, Alphabet::Name, NAMES[field]) {
        return Some(Fault::new(Malformed, within(fields, field, stranger.span), stranger.words));
    }
    if (least..=most).contains(&bytes.len()) {
        return None;
    }
    let words = match bytes.len() {
        0 => format!("the {} is missing; write {least} to {most} capitals or digits", NAMES[field]),
        length => format!("the {} has {length} characters, and {most} are the most", NAMES[field]),
    };
    Some(Fault::new(Malformed, fields.span(field), words))
}

fn kind(fields: &Fields) -> Option<Fault> {
    if fields.kind().is_some() {
        return None;
    }
    let typed = fields.text(KIND);
    let all = format!("the types are {}", KINDS.join(", "));
    let words = match (typed.trim(), nearest(&typed, &KINDS)) {
        ("", _) => format!("the limit type is missing; {all}"),
        (trimmed, Some(near)) if trimmed == near => format!("a blank stands beside the limit type; write {near}"),
        (trimmed, Some(near)) if trimmed.eq_ignore_ascii_case(near) => format!("limit types are in small letters; write {near}"),
        (_, Some(near)) => format!("this limit type is not known; the nearest is {near}"),
        (_, None) => format!("this limit type is not known; {all}"),
    };
    Some(Fault::new(Malformed, fields.span(KIND), words))
}

fn number(fields: &Fields, field: usize) -> Option<Fault> {
    let (bytes, name) = (fields.bytes(field), NAMES[field]);
    if let Some(stranger) = stranger(bytes, Alphabet::Number, name) {
        let unit = if field == TIME && stranger.words.starts_with("letters") { "; it is in milliseconds" } else { "" };
        return Some(Fault::new(Malformed, within(fields, field, stranger.span), stranger.words + unit));
    }
    match bytes.len() {
        0 => Some(Fault::new(Malformed, fields.span(field), format!("the {name} is missing; write a whole number"))),
        length if length > LONGEST_NUMBER => {
            Some(Fault::new(Malformed, fields.span(field), format!("the {name} has {length} digits, and {LONGEST_NUMBER} are the most")))
        }
        _ => None,
    }
}

fn letter(fields: &Fields, field: usize, letters: &str, takes: &str) -> Option<Fault> {
    let (typed, name) = (fields.text(field), NAMES[field]);
    if typed.is_empty() || (typed.len() == 1 && letters.contains(&typed)) {
        return None;
    }
    let trimmed = typed.trim();
    let is_one = trimmed.len() == 1 && letters.contains(&trimmed.to_ascii_uppercase());
    let words = if typed.ends_with('\r') {
        format!("the {name} ends with CR, as lines from Windows do; save the file with LF alone")
    } else if is_one && trimmed == typed {
        format!("a small letter; write {}", typed.to_ascii_uppercase())
    } else if trimmed.len() < typed.len() {
        format!("a blank stands in the {name}; it takes {takes}")
    } else {
        format!("the {name} takes {takes}")
    };
    Some(Fault::new(Malformed, fields.span(field), words))
}
