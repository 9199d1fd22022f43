//! Colour, on a terminal alone and only where NO_COLOR does not forbid it.

use std::io::{self, IsTerminal, Stdout, Write};

const PLAIN: &str = "\x1b[0m";
const BOLD: &str = "\x1b[1m";
const DIM: &str = "\x1b[2m";
const RED: &str = "\x1b[31m";
const GREEN: &str = "\x1b[32m";
const YELLOW: &str = "\x1b[33m";

/// The standard output, painted where it may be.
pub fn painted(out: Stdout) -> Box<dyn Write> {
    let variable = |name: &str| std::env::var(name).unwrap_or_default();
    let is_wanted = out.is_terminal() && variable("NO_COLOR").is_empty() && variable("TERM") != "dumb";
    if is_wanted {
        Box::new(Painter { out, line: Vec::new() })
    } else {
        Box::new(out)
    }
}

/// Paints whole lines; what has no end yet, a prompt, goes out as it is.
pub struct Painter<W: Write> {
    out: W,
    line: Vec<u8>,
}

impl<W: Write> Painter<W> {
    /// Paints what goes to a writer.
    pub fn new(out: W) -> Painter<W> {
        Painter { out, line: Vec::new() }
    }
}

impl<W: Write> Write for Painter<W> {
    fn write(&mut self, bytes: &[u8]) -> io::Result<usize> {
        for byte in bytes {
            if *byte == b'\n' {
                let line = std::mem::take(&mut self.line);
                writeln!(self.out, "{}", paint(&String::from_utf8_lossy(&line)))?;
            } else {
                self.line.push(*byte);
            }
        }
        Ok(bytes.len())
    }

    fn flush(&mut self) -> io::Result<()> {
        let line = std::mem::take(&mut self.line);
        self.out.write_all(&line)?;
        self.out.flush()
    }
}

/// A line with colour by what it says.
pub fn paint(line: &str) -> String {
    let (words, numbers) = match line.rfind("  [") {
        Some(at) if line.ends_with(']') && !line[at..].contains('#') => line.split_at(at),
        _ => (line, ""),
    };
    let colour = colour(words);
    let words = if colour.is_empty() { words.to_string() } else { format!("{colour}{words}{PLAIN}") };
    if numbers.is_empty() {
        words
    } else {
        format!("{words}{DIM}{numbers}{PLAIN}")
    }
}

fn colour(words: &str) -> &'static str {
    let below = words.split_once("| ").filter(|(margin, _)| margin.trim().is_empty()).map(|(_, rest)| rest.trim_start());
    let says = |some: &[&str]| some.iter().any(|word| words.contains(word));
    let begins = |some: &[&str]| some.iter().any(|word| words.starts_with(word));
    match below {
        Some(rest) if rest.starts_with('^') => RED,
        Some(rest) if rest.starts_with("warning") => YELLOW,
        Some(_) => "",
        None if begins(&["> "]) => BOLD,
        None if begins(&["rejected", "refused", "not armed"]) || says(&["; rejected"]) => RED,
        None if says(&[" tripped", "cut by", "locked by hand", "limit reached", "past the limit"]) => YELLOW,
        None if begins(&["granted all", "armed for"]) || says(&["may pass", " is good: ", " sent away: "]) => GREEN,
        None => "",
    }
}
