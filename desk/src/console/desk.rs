//! The desk: takes lines, works on the state, answers in words.

use crate::answers::answer;
use crate::answers::evening;
use crate::answers::table;
use crate::console::caution::Caution;
use crate::console::keeping;
use crate::console::undo::{Step, Steps};
use crate::explain::check;
use crate::files::disk;
use crate::files::moving;
use crate::library::form::Form;
use crate::library::state::Cleared;
use crate::session::sitting::Sitting;
use crate::typed::command::{self, Command};
use crate::typed::complete::Known;
use crate::typed::help;
use crate::typed::names::Names;
use crate::typed::spoken::typed;
use crate::words::{counted, shortened};
use std::io::{self, Write};

/// What stands on the desk: a state without rules, or one with a day behind it.
enum Bench {
    Unarmed(Cleared),
    Armed(Box<Sitting>),
}

impl Default for Bench {
    fn default() -> Bench {
        Bench::Unarmed(Cleared::default())
    }
}

/// The desk.
#[derive(Default)]
pub struct Desk {
    bench: Bench,
    steps: Steps,
    caution: Caution,
}

/// Whether the desk goes on after a line.
#[derive(Clone, Copy, Debug, PartialEq, Eq)]
pub enum After {
    /// The line was carried out.
    Done,
    /// The line could not be carried out; the answer says what to type.
    NotDone,
    /// The line asked for the end.
    End,
}

/// How many rules are said in words after arming; `check` says them all.
const RULES_SHOWN: usize = 12;

const ARM_FIRST: &str = "the unit is not armed, so nothing can be passed or asked (refusal 4); type arm FILE first";

impl Desk {
    /// A desk at a terminal: it asks before events are lost that nobody saved.
    pub fn asking() -> Desk {
        Desk { caution: Caution::asking(), ..Desk::default() }
    }

    /// Carries out a line and writes the answer; an error only if the answer cannot be written.
    pub fn line(&mut self, line: &str, out: &mut dyn Write) -> io::Result<After> {
        self.caution.next_line();
        let done = match command::read(line) {
            Ok(Command::Quit) => match self.caution.question(self.at_stake(), "quit") {
                None => return Ok(After::End),
                Some(question) => Err(question),
            },
            Ok(Command::Replay { file, form, quiet }) => self.replay(&file, form, quiet, out)?,
            Ok(command) => self.carry_out(command),
            Err(advice) => Err(advice),
        };
        match done {
            Ok(text) if text.is_empty() => Ok(After::Done),
            Ok(text) => writeln!(out, "{text}").map(|()| After::Done),
            Err(advice) => writeln!(out, "{advice}").map(|()| After::NotDone),
        }
    }

    /// Refuses a line of more bytes than the desk takes.
    pub fn too_long(&mut self, most: usize, out: &mut dyn Write) -> io::Result<After> {
        self.caution.next_line();
        writeln!(out, "the line has more than {}, so nothing of it was done; type a shorter one", counted(most, "byte"))?;
        Ok(After::NotDone)
    }

    fn carry_out(&mut self, command: Command) -> Result<String, String> {
        match command {
            Command::Arm(file) => self.arm(&file),
            Command::Check(file) => check::check(&file, &disk::profile(&file)?),
            Command::Offer(_) | Command::Order(_) | Command::Lock(_) => self.pass(&command),
            Command::Away(_) | Command::Back(_) | Command::Close(_) => self.pass(&command),
            Command::Remaining(words) => self.remaining(&words),
            Command::Profile(None) => keeping::profile(self.sitting()?),
            Command::Profile(Some(kept)) => keeping::save_profile(self.sitting()?, &kept),
            Command::Account(None) => self.sitting().map(|sitting| evening::table(&sitting.profile, &sitting.account)),
            Command::Account(Some(kept)) => keeping::save_account(self.sitting()?, &kept),
            Command::Status => table::status(self.sitting()?).map_err(|refusal| refusal.to_string()),
            Command::Clear => self.clear(),
            Command::Undo => self.steps.undo(armed(&mut self.bench)?),
            Command::Save { kept, in_words } => keeping::save(self.sitting()?, &kept, in_words),
            Command::Report { file, stretch } => keeping::report(self.sitting()?, &file, stretch),
            Command::Move { which, from, kept } => moving::file(which, &from, &kept),
            Command::Help(None) => Ok(help::list()),
            Command::Help(Some(name)) => help::on(&name).ok_or_else(|| no_help(&name)),
            Command::Nothing | Command::Quit | Command::Replay { .. } => Ok(String::new()),
        }
    }

    /// The names that can be typed: roots, and orders sent away that are open; none if the unit is not armed.
    pub fn known(&self) -> Known {
        let Bench::Armed(sitting) = &self.bench else { return Known::default() };
        let open = sitting.away.orders().iter().map(|order| order.sent.identity.to_string()).collect();
        Known { roots: sitting.profile.roots.clone(), open }
    }

    fn sitting(&mut self) -> Result<&mut Sitting, String> {
        armed(&mut self.bench)
    }

    /// Passes the events of a file.
    fn replay(&mut self, file: &str, form: Form, quiet: bool, out: &mut dyn Write) -> io::Result<Result<String, String>> {
        let sitting = match armed(&mut self.bench) {
            Ok(sitting) => sitting,
            Err(advice) => return Ok(Err(advice)),
        };
        let before = Step::before(sitting);
        let said = keeping::replay(sitting, file, form, quiet, out)?;
        self.steps.took(before, sitting, format!("the replay of {file}"));
        Ok(said)
    }

    fn arm(&mut self, file: &str) -> Result<String, String> {
        let cleared = match std::mem::take(&mut self.bench) {
            Bench::Unarmed(cleared) => cleared,
            Bench::Armed(sitting) => {
                let advice = format!("armed already for {} (refusal 3); type clear first", sitting.profile.firm);
                self.bench = Bench::Armed(sitting);
                return Err(advice);
            }
        };
        let text = disk::profile(file)?;
        let armed = cleared.arm(&text).map_err(|why| check::not_armed(file, &text, why))?;
        let sitting = Sitting::new(armed, file, &text);
        let words = check::armed(&sitting.profile, RULES_SHOWN);
        self.bench = Bench::Armed(Box::new(sitting));
        self.steps = Steps::of(&text);
        Ok(words)
    }

    /// Passes the event that a command asks for.
    fn pass(&mut self, command: &Command) -> Result<String, String> {
        let sitting = armed(&mut self.bench)?;
        let names = Names::of(sitting);
        let Some(event) = names.event(command) else { return Ok(String::new()) };
        let (event, before) = (event?, Step::before(sitting));
        let passed = sitting.pass(event);
        self.steps.took(before, sitting, typed(&sitting.profile, &event));
        Ok(answer::answer(sitting, &passed))
    }

    fn remaining(&mut self, words: &[String]) -> Result<String, String> {
        let sitting = self.sitting()?;
        let (time, shown) = Names::of(sitting).table(words)?;
        table::rules(sitting, time, shown)
    }

    fn clear(&mut self) -> Result<String, String> {
        if let Some(question) = self.caution.question(self.at_stake(), "clear") {
            return Err(question);
        }
        if let Bench::Armed(sitting) = std::mem::take(&mut self.bench) {
            self.caution.lose(sitting.unsaved);
            self.bench = Bench::Unarmed(sitting.clear());
            self.steps = Steps::default();
        }
        Ok("cleared: the unit holds no rules, and nothing may pass until it is armed  [0]".to_string())
    }

    /// How many typed events nobody saved: those that were cleared away where nobody could be asked, and those that would be lost now.
    pub fn unsaved(&self) -> usize {
        self.caution.lost() + self.at_stake()
    }

    /// How many typed events would be lost now.
    fn at_stake(&self) -> usize {
        match &self.bench {
            Bench::Armed(sitting) => sitting.unsaved,
            Bench::Unarmed(_) => 0,
        }
    }
}

/// The day on an armed state.
fn armed(bench: &mut Bench) -> Result<&mut Sitting, String> {
    match bench {
        Bench::Armed(sitting) => Ok(sitting),
        Bench::Unarmed(_) => Err(ARM_FIRST.to_string()),
    }
}

fn no_help(name: &str) -> String {
    let names: Vec<&str> = help::names().collect();
    format!("there is no help on '{}'; type help, or help and one of {}", shortened(name), names.join(", "))
}
