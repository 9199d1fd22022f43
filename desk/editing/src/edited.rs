//! Lines that rustyline edits: arrows and history, Tab for commands, roots, open orders and files.

use desk::console::desk::Desk;
use desk::console::lines::{talk, Ended, Line, Lines};
use desk::typed::complete::{self, Known};
use rustyline::completion::{Completer, Pair};
use rustyline::error::ReadlineError;
use rustyline::highlight::Highlighter;
use rustyline::hint::Hinter;
use rustyline::validate::Validator;
use rustyline::{CompletionType, Config, Context, Editor, Helper};
use std::io::{self, Write};
use std::path::PathBuf;

/// Longer histories lose their oldest lines.
const MOST_LINES: usize = 1_000;

/// A dialogue at a terminal.
pub fn dialogue(out: &mut dyn Write) -> io::Result<Ended> {
    let config = Config::builder().max_history_size(MOST_LINES).completion_type(CompletionType::List).auto_add_history(true).build();
    let mut editor = Editor::with_config(config);
    editor.set_helper(Some(Names::default()));
    let history = history();
    if let Some(file) = &history {
        // no history yet is as good as one
        let _ = editor.load_history(file);
    }
    let done = talk(&mut Edited { editor: &mut editor }, out);
    if let Some(file) = &history {
        // a history that cannot be kept is no reason to end with an error
        let _ = editor.save_history(file);
    }
    done
}

/// The file that keeps the history: DESK_HISTORY, which may be empty for none, or one in the person's own folder.
fn history() -> Option<PathBuf> {
    match std::env::var_os("DESK_HISTORY") {
        Some(name) if name.is_empty() => None,
        Some(name) => Some(PathBuf::from(name)),
        None => std::env::var_os("HOME").map(|home| PathBuf::from(home).join(".desk_history")),
    }
}

struct Edited<'a> {
    editor: &'a mut Editor<Names>,
}

impl Lines for Edited<'_> {
    fn next(&mut self, prompt: &str, desk: &Desk, out: &mut dyn Write) -> io::Result<Option<Line>> {
        out.flush()?;
        if let Some(names) = self.editor.helper_mut() {
            names.known = desk.known();
        }
        match self.editor.readline(prompt) {
            Ok(line) => Ok(Some(Line::of(line.as_bytes()))),
            // a line that was given up is an empty one
            Err(ReadlineError::Interrupted) => Ok(Some(Line::of(b""))),
            Err(ReadlineError::Eof) => Ok(None),
            Err(ReadlineError::Io(error)) => Err(error),
            Err(error) => Err(io::Error::other(error.to_string())),
        }
    }
}

/// What Tab knows of the desk.
#[derive(Default)]
struct Names {
    known: Known,
}

impl Completer for Names {
    type Candidate = Pair;

    fn complete(&self, line: &str, at: usize, _: &Context<'_>) -> rustyline::Result<(usize, Vec<Pair>)> {
        let (start, words) = complete::candidates(&line[..at], &self.known);
        let only = words.len() == 1;
        let pair = |word: String| {
            let end = if only && !word.ends_with('/') { " " } else { "" };
            Pair { replacement: format!("{word}{end}"), display: word }
        };
        Ok((start, words.into_iter().map(pair).collect()))
    }
}

impl Helper for Names {}
impl Highlighter for Names {}
impl Validator for Names {}
impl Hinter for Names {
    type Hint = String;
}
