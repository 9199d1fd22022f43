//! Values written as JSON.

use std::fmt::Write;

/// A text in quotation marks.
pub fn text(text: &str) -> String {
    let mut out = String::from("\"");
    for c in text.chars() {
        match c {
            '"' => out.push_str("\\\""),
            '\\' => out.push_str("\\\\"),
            '\n' => out.push_str("\\n"),
            // a script must not end where a text says so
            '<' | '>' | '&' | '\u{2028}' | '\u{2029}' => push_number(&mut out, c),
            c if c.is_control() => push_number(&mut out, c),
            c => out.push(c),
        }
    }
    out.push('"');
    out
}

fn push_number(out: &mut String, c: char) {
    // writing to a text never fails
    let _ = write!(out, "\\u{:04x}", c as u32);
}

/// A text, or null.
pub fn maybe(value: Option<String>) -> String {
    value.map_or_else(|| "null".to_string(), |value| text(&value))
}

/// A list of values that are written already.
pub fn list(values: impl IntoIterator<Item = String>) -> String {
    format!("[{}]", values.into_iter().collect::<Vec<_>>().join(","))
}

/// An object of names and values that are written already.
pub fn object(fields: &[(&str, String)]) -> String {
    let fields: Vec<String> = fields.iter().map(|(name, value)| format!("{}:{value}", text(name))).collect();
    format!("{{{}}}", fields.join(","))
}

#[cfg(test)]
mod tests {
    use super::{list, maybe, object, text};

    #[test]
    fn values_are_written_as_json() {
        assert_eq!(text("a\"b\\c\nd\u{1}</script>\u{2028}é"), "\"a\\\"b\\\\c\\nd\\u0001\\u003c/script\\u003e\\u2028é\"");
        assert_eq!(
            object(&[("a", list(["1".to_string(), maybe(None)])), ("b", maybe(Some("x".to_string())))]),
            "{\"a\":[1,null],\"b\":\"x\"}"
        );
    }
}
