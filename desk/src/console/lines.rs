//! Lines in, answers out: a person at a terminal, a script in a file, or a pipe.

use crate::console::desk::{After, Desk};
use crate::words::{plain, shortened};
use std::io::{self, BufRead, Read, Write};

/// A line of more bytes is refused whole.
const LONGEST: usize = 1 << 16;

/// A line that was typed.
#[derive(Clone, Debug, PartialEq, Eq)]
pub enum Line {
    /// All of it, without its end.
    Whole(String),
    /// It has more bytes than the desk takes.
    TooLong,
}

impl Line {
    /// From the bytes of a line without its end.
    pub fn of(bytes: &[u8]) -> Line {
        if bytes.len() > LONGEST {
            return Line::TooLong;
        }
        Line::Whole(plain(&String::from_utf8_lossy(bytes)))
    }
}

/// How lines are taken.
#[derive(Clone, Copy, Debug, PartialEq, Eq)]
pub enum Manner {
    /// A prompt before each line, which the terminal itself shows as it is typed.
    Asked,
    /// Each line shown before its answer, so that the output reads as a dialogue.
    Shown,
}

/// Where lines come from.
pub trait Lines {
    /// The next line without its end, asked for by a prompt; nothing at the end of the input.
    fn next(&mut self, prompt: &str, desk: &Desk, out: &mut dyn Write) -> io::Result<Option<Line>>;

    /// Whether somebody is there to answer a question.
    fn asked(&self) -> bool {
        true
    }
}

/// Lines from a file, a pipe, or a terminal that edits them itself.
struct FromInput<'a> {
    input: &'a mut dyn BufRead,
    manner: Manner,
}

impl FromInput<'_> {
    /// The bytes of the next line without its end, and of one that is too long its beginning; nothing at the end of the input.
    fn bytes(&mut self) -> io::Result<Option<Vec<u8>>> {
        let mut bytes = Vec::new();
        if self.input.take(LONGEST as u64 + 1).read_until(b'\n', &mut bytes)? == 0 {
            return Ok(None);
        }
        if bytes.len() > LONGEST && !bytes.ends_with(b"\n") {
            self.input.skip_until(b'\n')?;
        } else {
            let end = bytes.iter().rposition(|byte| !b"\r\n".contains(byte)).map_or(0, |last| last + 1);
            bytes.truncate(end);
        }
        Ok(Some(bytes))
    }
}

impl Lines for FromInput<'_> {
    fn next(&mut self, prompt: &str, _: &Desk, out: &mut dyn Write) -> io::Result<Option<Line>> {
        if self.manner == Manner::Asked {
            write!(out, "{prompt}")?;
            out.flush()?;
        }
        let Some(bytes) = self.bytes()? else {
            if self.manner == Manner::Asked {
                writeln!(out)?;
            }
            return Ok(None);
        };
        let line = Line::of(&bytes);
        if self.manner == Manner::Shown {
            let shown = match &line {
                Line::Whole(text) => text.clone(),
                Line::TooLong => shortened(&plain(&String::from_utf8_lossy(&bytes))),
            };
            writeln!(out, "{}", format!("{prompt}{shown}").trim_end())?;
        }
        Ok(Some(line))
    }

    fn asked(&self) -> bool {
        self.manner == Manner::Asked
    }
}

/// What a dialogue came to.
#[derive(Clone, Copy, Debug, PartialEq, Eq)]
pub struct Ended {
    /// How many lines could not be carried out.
    pub not_done: usize,
    /// How many typed events nobody saved.
    pub unsaved: usize,
}

/// Carries out every line to the end of the input, or to `quit`.
pub fn run(input: &mut dyn BufRead, out: &mut dyn Write, manner: Manner) -> io::Result<Ended> {
    talk(&mut FromInput { input, manner }, out)
}

/// The same for lines that come from elsewhere.
pub fn talk(lines: &mut dyn Lines, out: &mut dyn Write) -> io::Result<Ended> {
    let asked = lines.asked();
    let mut desk = if asked { Desk::asking() } else { Desk::default() };
    let mut not_done = 0;
    loop {
        let after = match lines.next("> ", &desk, out)? {
            Some(Line::Whole(line)) => desk.line(&line, out)?,
            Some(Line::TooLong) => desk.too_long(LONGEST, out)?,
            // the end of a terminal's input is a quit, which may have to be said twice
            None if asked => desk.line("quit", out)?,
            None => break,
        };
        match after {
            After::Done => {}
            After::NotDone => not_done += 1,
            After::End => break,
        }
    }
    Ok(Ended { not_done, unsaved: desk.unsaved() })
}

/// A dialogue at a terminal that edits its lines itself.
pub fn by_the_terminal(out: &mut dyn Write) -> io::Result<Ended> {
    run(&mut io::stdin().lock(), out, Manner::Asked)
}
