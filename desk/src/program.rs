//! The program: its arguments, and what it ends with.

use crate::console::lines::{run, Ended, Manner};
use crate::console::paint;
use crate::explain::check;
use crate::files::given;
use crate::files::moving;
use crate::library::form::Form;
use crate::profile::Profile;
use crate::report;
use crate::serve;
use crate::typed::command::{Kept, Move};
use crate::typed::help;
use crate::typed::names::Names;
use crate::words::counted;
use mbrumzheg::Time;
use std::io::{self, BufReader, IsTerminal, Write};
use std::process::ExitCode;

/// How the program is called.
pub const USAGE: &str = "\
usage: desk                    lines from the terminal or a pipe
       desk SCRIPT             lines from a file; - is the standard input
       desk check PROFILE      what a profile means, or what is wrong with it
       desk report [--old] PROFILE RECORDS PAGE [from TIME to TIME]
                               a page (HTML) on a recorded day or a part of it;
                               if PAGE ends in .csv or .json, its figures;
                               --old reads records of the old form, of 12 bytes
       desk widen OLD NEW      old records of 12 bytes as records of 16
       desk narrow NEW OLD     and back; nothing is written if one does not fit
       desk serve [PROFILE]    the desk as a page in the browser of this machine
       desk help [COMMAND]     what can be typed
       desk --version
";

/// A dialogue with a person at a terminal, for which there is more than one way.
pub type Dialogue = fn(&mut dyn Write) -> io::Result<Ended>;

/// What the program ends with: 0, 1 where something was refused or could not be carried out, 2 for a call that it does not understand.
#[derive(Clone, Copy, Debug, PartialEq, Eq)]
pub enum End {
    /// Everything was done.
    Done,
    /// Something was not.
    NotDone,
    /// The call is wrong.
    WrongUse,
}

/// Runs the program on the arguments that it was called with.
pub fn main(dialogue: Dialogue) -> ExitCode {
    let words: Vec<String> = std::env::args_os().skip(1).map(|word| word.to_string_lossy().into_owned()).collect();
    let words: Vec<&str> = words.iter().map(String::as_str).collect();
    match call(&words, dialogue) {
        Ok(End::Done) => ExitCode::SUCCESS,
        Ok(End::NotDone) => ExitCode::FAILURE,
        Ok(End::WrongUse) => ExitCode::from(2),
        // whoever read the answers has gone away, and needs no word of it
        Err(error) if error.kind() == io::ErrorKind::BrokenPipe => ExitCode::FAILURE,
        Err(error) => {
            // where even this cannot be written, the exit code says it
            let _ = writeln!(io::stderr(), "the desk cannot go on: {error}");
            ExitCode::FAILURE
        }
    }
}

fn call(words: &[&str], dialogue: Dialogue) -> io::Result<End> {
    let out = &mut paint::painted(io::stdout());
    match words {
        [] => from_standard_input(out, dialogue),
        ["-V" | "--version"] => writeln!(out, "desk {}", report::VERSION).map(|()| End::Done),
        ["-h" | "--help" | "help"] => write!(out, "{USAGE}\n{}\n", help::list()).map(|()| End::Done),
        ["help", name] => match help::on(name) {
            Some(text) => writeln!(out, "{text}").map(|()| End::Done),
            None => wrong(&format!("there is no help on '{name}'")),
        },
        ["-"] => run(&mut io::stdin().lock(), out, Manner::Shown).map(end),
        ["check", name] => checked(name, out),
        ["report", "--old", words @ ..] => reported(words, Form::Old, out),
        ["report", words @ ..] => reported(words, Form::New, out),
        ["widen", from, to] => moved(Move::Widen, from, to, out),
        ["narrow", from, to] => moved(Move::Narrow, from, to, out),
        ["serve"] => served(None, out),
        ["serve", profile] => served(Some(profile), out),
        [name @ ("check" | "widen" | "narrow" | "serve"), ..] => wrong(&format!("{name} takes other words after it")),
        [option, ..] if option.starts_with('-') => wrong(&format!("'{option}' is no option")),
        [script] => from_file(script, out),
        _ => wrong("too many words"),
    }
}

fn wrong(why: &str) -> io::Result<End> {
    write!(io::stderr(), "desk: {why}\n{USAGE}").map(|()| End::WrongUse)
}

/// What a script ends with; events that nobody saved are said, since nobody could be asked.
fn end(ended: Ended) -> End {
    if ended.unsaved > 0 {
        let were = if ended.unsaved == 1 { "was" } else { "were" };
        // where even this cannot be written, nobody is there to read it
        let _ = writeln!(io::stderr(), "desk: {} {were} not saved", counted(ended.unsaved, "event"));
    }
    if ended.not_done == 0 {
        End::Done
    } else {
        End::NotDone
    }
}

fn from_standard_input(out: &mut dyn Write, dialogue: Dialogue) -> io::Result<End> {
    let input = io::stdin();
    if !input.is_terminal() {
        return run(&mut input.lock(), out, Manner::Shown).map(end);
    }
    writeln!(out, "The desk of the risk unit; it is not armed. Type help for the commands.")?;
    dialogue(out).map(|_| End::Done)
}

fn from_file(name: &str, out: &mut dyn Write) -> io::Result<End> {
    match std::fs::File::open(name) {
        Ok(file) => run(&mut BufReader::new(file), out, Manner::Shown).map(end),
        Err(error) => wrong(&format!("'{name}' is no command and no file that can be read ({error})")),
    }
}

fn checked(name: &str, out: &mut dyn Write) -> io::Result<End> {
    let text = match given::profile(name) {
        Ok(text) => text,
        Err(advice) => return writeln!(io::stderr(), "desk: {advice}").map(|()| End::WrongUse),
    };
    if let Some(remark) = given::emptiness(name, &text) {
        writeln!(io::stderr(), "desk: {remark}")?;
    }
    match check::check(given::shown(name), &text) {
        Ok(words) => writeln!(out, "{words}").map(|()| End::Done),
        Err(words) => writeln!(out, "{words}").map(|()| End::NotDone),
    }
}

fn served(profile: Option<&str>, out: &mut dyn Write) -> io::Result<End> {
    match serve::serve(profile, out)? {
        Ok(()) => Ok(End::Done),
        Err(advice) => writeln!(io::stderr(), "desk: {advice}").map(|()| End::WrongUse),
    }
}

/// Moves a file of records to the other form.
fn moved(which: Move, from: &str, to: &str, out: &mut dyn Write) -> io::Result<End> {
    match moving::file(which, from, &Kept { file: to.to_string(), over: false }) {
        Ok(words) => writeln!(out, "{words}").map(|()| End::Done),
        Err(advice) => writeln!(io::stderr(), "desk: {advice}").map(|()| End::NotDone),
    }
}

fn reported(words: &[&str], form: Form, out: &mut dyn Write) -> io::Result<End> {
    match words {
        ["-", "-", ..] => wrong("profile and records cannot both be the standard input"),
        [profile, records, page] => report(profile, (records, form), page, None, out),
        [profile, records, page, "from", from, "to", to] => report(profile, (records, form), page, Some((from, to)), out),
        _ => wrong("report takes other words after it"),
    }
}

fn report(profile: &str, records: (&str, Form), page: &str, stretch: Option<(&str, &str)>, out: &mut dyn Write) -> io::Result<End> {
    let names = Names { profile: &Profile::default(), clock: Time::START };
    let done = stretch.map(|(from, to)| names.stretch(from, to)).transpose();
    match done.and_then(|stretch| report::of_files(profile, records, page, stretch)) {
        Ok(words) => writeln!(out, "{words}").map(|()| End::Done),
        Err(advice) => writeln!(io::stderr(), "desk: {advice}").map(|()| End::NotDone),
    }
}
