//! A line of a profile with marks under its faults, in 80 columns.

use crate::explain::fault::Fault;
use crate::words::wrapped;
use std::ops::Range;

const WIDTH: usize = 80;

/// The line with its number, and under it each fault: marks below the bytes that it is about, then the words.
pub fn shown(number: usize, line: &[u8], faults: &[Fault]) -> Vec<String> {
    let (head, below) = margins(number);
    let cells = Cells::of(line);
    let room = WIDTH - head.len();
    let first = faults.first().map_or(0..0, |fault| cells.columns(&fault.span));
    let window = window(cells.width(), &first, room);
    let mut text = vec![format!("{head}{}", cells.text(&window)).trim_end().to_string()];
    for fault in faults {
        let columns = cells.columns(&fault.span);
        if columns.start < window.end && columns.end > window.start || columns == first {
            text.push(format!("{below}{}", marks(&columns, &window)));
        }
        text.extend(wrapped(&fault.words, room).into_iter().map(|words| format!("{below}{words}")));
    }
    text
}

/// What stands before a line, and before what is said below it.
fn margins(number: usize) -> (String, String) {
    let head = format!("  {number} | ");
    let below = format!("{}| ", " ".repeat(head.len() - 2));
    (head, below)
}

/// A line's characters as they are shown, with the bytes that each stands for.
struct Cells(Vec<(Range<usize>, String)>);

impl Cells {
    fn of(line: &[u8]) -> Cells {
        let mut cells = Vec::new();
        let mut at = 0;
        for piece in line.utf8_chunks() {
            for character in piece.valid().chars() {
                cells.push((at..at + character.len_utf8(), as_shown(character)));
                at += character.len_utf8();
            }
            for byte in piece.invalid() {
                cells.push((at..at + 1, format!("<{byte:02X}>")));
                at += 1;
            }
        }
        Cells(cells)
    }

    fn width(&self) -> usize {
        self.0.iter().map(|(_, text)| text.chars().count()).sum()
    }

    /// The columns of some bytes: at least one, so that a place where something is missing can be marked.
    fn columns(&self, span: &Range<usize>) -> Range<usize> {
        let width = |cells: &[(Range<usize>, String)]| cells.iter().map(|(_, text)| text.chars().count()).sum::<usize>();
        let start = self.0.partition_point(|(bytes, _)| bytes.start < span.start);
        let end = self.0.partition_point(|(bytes, _)| bytes.start < span.end);
        let from = width(&self.0[..start]);
        from..from + width(&self.0[start..end.max(start)]).max(1)
    }

    /// The line's columns in a window, with dots where it goes on.
    fn text(&self, window: &Range<usize>) -> String {
        let whole: String = self.0.iter().map(|(_, text)| text.as_str()).collect();
        let mut text: Vec<char> = whole.chars().skip(window.start).take(window.len()).collect();
        let length = text.len();
        if window.start > 0 {
            text.iter_mut().take(3).for_each(|column| *column = '.');
        }
        if window.end < self.width() {
            text.iter_mut().skip(length.saturating_sub(3)).for_each(|column| *column = '.');
        }
        text.into_iter().collect()
    }
}

/// A character as itself, or in angles what it is where it could not be seen.
fn as_shown(character: char) -> String {
    match character {
        '\r' => "<CR>".to_string(),
        '\t' => "<TAB>".to_string(),
        '\u{FEFF}' => "<BOM>".to_string(),
        c if c.is_ascii_control() => format!("<{:02X}>", c as u32),
        c if c.is_ascii() || c.is_alphanumeric() => c.to_string(),
        c => format!("<U+{:04X}>", c as u32),
    }
}

/// The columns that are shown of a line, so that the first fault is among them.
fn window(width: usize, first: &Range<usize>, room: usize) -> Range<usize> {
    if width <= room && first.end <= room {
        return 0..room;
    }
    let start = if first.end + 4 <= room { 0 } else { first.start.saturating_sub(room / 3) };
    start..start + room
}

fn marks(columns: &Range<usize>, window: &Range<usize>) -> String {
    let start = columns.start.clamp(window.start, window.end - 1);
    let end = columns.end.clamp(start + 1, window.end);
    format!("{}{}", " ".repeat(start - window.start), "^".repeat(end - start))
}
