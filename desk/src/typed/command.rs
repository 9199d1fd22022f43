//! A typed line as a command, or as a sentence that says what to type.

use crate::library::form::Form;
use crate::typed::meant::no_command;

/// A file to write.
#[derive(Clone, Debug, PartialEq, Eq)]
pub struct Kept {
    /// Its name.
    pub file: String,
    /// Whether one that is there already may be written over.
    pub over: bool,
}

/// How a file of records is moved.
#[derive(Clone, Copy, Debug, PartialEq, Eq)]
pub enum Move {
    /// From the old form of 12 bytes to 16.
    Widen,
    /// From 16 bytes to the old form.
    Narrow,
}

impl Move {
    /// The word that asks for it.
    pub const fn name(self) -> &'static str {
        match self {
            Move::Widen => "widen",
            Move::Narrow => "narrow",
        }
    }

    /// The form that a file is moved from.
    pub const fn from(self) -> Form {
        match self {
            Move::Widen => Form::Old,
            Move::Narrow => Form::New,
        }
    }

    /// The form that a file is moved to.
    pub const fn to(self) -> Form {
        self.from().other()
    }
}

/// What the desk can be asked to do. Words that need the profile or the clock are kept as words.
#[derive(Clone, Debug, PartialEq, Eq)]
pub enum Command {
    /// Nothing: an empty line or a comment.
    Nothing,
    /// Arm from the profile in a file.
    Arm(String),
    /// Say what a profile in a file means, or what is wrong with it.
    Check(String),
    /// Offer a fill.
    Offer(Vec<String>),
    /// Pass an order.
    Order(Vec<String>),
    /// Lock a root or the firm by hand.
    Lock(Vec<String>),
    /// Send an order away.
    Away(Vec<String>),
    /// Take a report of an order sent away.
    Back(Vec<String>),
    /// Close an order sent away.
    Close(Vec<String>),
    /// Show the rules with what is used and left.
    Remaining(Vec<String>),
    /// Show the rules that are active as a profile's text, or write that to a file.
    Profile(Option<Kept>),
    /// Show the day's account, or write it to a file.
    Account(Option<Kept>),
    /// Show what is locked.
    Status,
    /// Forget everything.
    Clear,
    /// Take back the last line or replay that passed events.
    Undo,
    /// Write the day to a file, as records or in words.
    Save {
        /// The file.
        kept: Kept,
        /// Whether it is written in words.
        in_words: bool,
    },
    /// Pass the events of a file; `quiet` shows only what did not simply pass.
    Replay {
        /// The file of records.
        file: String,
        /// The form of its records.
        form: Form,
        /// Whether plain passes are left out.
        quiet: bool,
    },
    /// Move the records of a file to another form in another file.
    Move {
        /// From which form to which.
        which: Move,
        /// The file of records.
        from: String,
        /// The file to write.
        kept: Kept,
    },
    /// Write a page on the day, or on a stretch of it, to a file.
    Report {
        /// The file to write.
        file: String,
        /// The first and last time of a stretch, as words.
        stretch: Option<(String, String)>,
    },
    /// Show the commands, or more on one of them.
    Help(Option<String>),
    /// End.
    Quit,
}

/// Reads a line.
pub fn read(line: &str) -> Result<Command, String> {
    let line = line.trim();
    if line.is_empty() || line.starts_with('#') {
        return Ok(Command::Nothing);
    }
    let (name, rest) = line.split_once(char::is_whitespace).unwrap_or((line, ""));
    let rest = rest.trim();
    let words = || rest.split_whitespace().map(str::to_string).collect::<Vec<_>>();
    match name.to_ascii_lowercase().as_str() {
        "arm" => file(rest, "arm FILE").map(Command::Arm),
        "check" => file(rest, "check FILE").map(Command::Check),
        "offer" => Ok(Command::Offer(words())),
        "order" => Ok(Command::Order(words())),
        "lock" | "lockout" => Ok(Command::Lock(words())),
        "away" | "send" => Ok(Command::Away(words())),
        "back" => Ok(Command::Back(words())),
        "close" => Ok(Command::Close(words())),
        "remaining" | "rules" => Ok(Command::Remaining(words())),
        "profile" if rest.is_empty() => Ok(Command::Profile(None)),
        "profile" => kept(rest, "profile").map(|kept| Command::Profile(Some(kept))),
        "account" if rest.is_empty() => Ok(Command::Account(None)),
        "account" => kept(rest, "account").map(|kept| Command::Account(Some(kept))),
        "status" => alone(rest, "status", Command::Status),
        "clear" => alone(rest, "clear", Command::Clear),
        "undo" => alone(rest, "undo", Command::Undo),
        "save" => save(rest),
        "replay" => replay(rest),
        "widen" => moved(rest, Move::Widen),
        "narrow" => moved(rest, Move::Narrow),
        "report" => report(rest),
        "help" | "?" => Ok(Command::Help(Some(rest.to_string()).filter(|name| !name.is_empty()))),
        "quit" | "exit" => alone(rest, "quit", Command::Quit),
        _ => Err(no_command(name)),
    }
}

fn file(rest: &str, form: &str) -> Result<String, String> {
    if rest.is_empty() {
        return Err(format!("which file? type {form}"));
    }
    Ok(rest.to_string())
}

fn alone(rest: &str, name: &str, command: Command) -> Result<Command, String> {
    if rest.is_empty() {
        return Ok(command);
    }
    Err(format!("{name} takes nothing after it; type {name}"))
}

fn replay(rest: &str) -> Result<Command, String> {
    let (rest, quiet) = with_last(rest, "quiet");
    let (name, old) = with_last(rest, "old");
    let file = file(name, "replay FILE [old] [quiet]")?;
    Ok(Command::Replay { file, form: Form::asked(old), quiet })
}

/// A file and the one to move its records to, then `over` where it is asked for.
fn moved(rest: &str, which: Move) -> Result<Command, String> {
    let (names, over) = with_last(rest, "over");
    let (from, to) = names.split_once(char::is_whitespace).map_or(("", ""), |(from, to)| (from, to.trim()));
    let file = file(to, &format!("{0} FILE TO, or {0} FILE TO over to write over a file that is there", which.name()))?;
    Ok(Command::Move { which, from: from.to_string(), kept: Kept { file, over } })
}

/// A file to save to, then `words` and `over` where they are asked for.
fn save(rest: &str) -> Result<Command, String> {
    let (rest, over) = with_last(rest, "over");
    let (name, in_words) = with_last(rest, "words");
    let form = "save FILE [words], or save FILE [words] over to write over a file that is there";
    file(name, form).map(|file| Command::Save { kept: Kept { file, over }, in_words })
}

fn kept(rest: &str, command: &str) -> Result<Kept, String> {
    let (name, over) = with_last(rest, "over");
    let form = format!("{command} FILE, or {command} FILE over to write over a file that is there");
    file(name, &form).map(|file| Kept { file, over })
}

/// What stands before a last word, and whether that word is there.
fn with_last<'a>(rest: &'a str, word: &str) -> (&'a str, bool) {
    match rest.rsplit_once(char::is_whitespace) {
        Some((name, last)) if last == word => (name.trim(), true),
        _ => (rest, false),
    }
}

fn report(rest: &str) -> Result<Command, String> {
    let form = "report FILE, or report FILE from TIME to TIME";
    let words: Vec<&str> = rest.split_whitespace().collect();
    let (name, stretch) = match words.as_slice() {
        [_, .., "from", from, "to", to] => (rest.rsplit_once(" from ").map_or(rest, |(name, _)| name), Some((*from, *to))),
        ["from", _, "to", _] => ("", None),
        _ => (rest, None),
    };
    let stretch = stretch.map(|(from, to)| (from.to_string(), to.to_string()));
    Ok(Command::Report { file: file(name.trim(), form)?, stretch })
}
