//! Help: the list of commands, and more on each of them.

use crate::session::resets;
use crate::typed::topics::{COMMANDS, OTHERS};
use crate::words::wrapped;
use mbrumzheg::Refusal;

const WIDTH: usize = 80;
const COLUMN: usize = 26;

/// The list of commands.
pub fn list() -> String {
    let mut lines = Vec::new();
    for topic in &COMMANDS {
        if topic.form.len() < COLUMN {
            lines.push(format!("{:COLUMN$}{}", topic.form, topic.short));
        } else {
            lines.push(topic.form.to_string());
            lines.push(format!("{:COLUMN$}{}", "", topic.short));
        }
    }
    lines.extend(wrapped("TIME is 10ms, 2.5s, 09:30, 09:30:00.250, now, or +10ms for 10 ms after the clock. # starts a comment.", WIDTH));
    lines.push("In brackets: the event's place, refusal, verdict, grant, root trip, firm trip.".to_string());
    lines.push("Rules are numbered from 0: rule 0 is the profile's first line.".to_string());
    lines.push("More: help COMMAND, help time, numbers, resets, refusals, profile.".to_string());
    lines.join("\n")
}

/// More on a command or another topic, if there is such.
pub fn on(name: &str) -> Option<String> {
    let name = name.to_ascii_lowercase();
    match name.as_str() {
        "refusals" => return Some(refusals()),
        "resets" => return Some(resets::help(WIDTH)),
        _ => {}
    }
    let mut lines = Vec::new();
    for topic in COMMANDS.iter().chain(&OTHERS).filter(|topic| topic.name == name) {
        lines.push(topic.form.to_string());
        lines.extend(wrapped(topic.long, WIDTH));
        lines.extend(topic.examples.iter().map(|example| format!("    {example}")));
    }
    (!lines.is_empty()).then(|| lines.join("\n"))
}

/// Everything that help can be asked for.
pub fn names() -> impl Iterator<Item = &'static str> {
    let others = OTHERS.iter().filter(|other| COMMANDS.iter().all(|command| command.name != other.name));
    COMMANDS.iter().chain(others).map(|topic| topic.name).chain(["resets", "refusals"])
}

fn refusals() -> String {
    let mut lines = vec!["A refused call changes nothing. The refusals by number:".to_string()];
    for refusal in Refusal::ALL {
        let sentence = wrapped(refusal.sentence(), WIDTH - 5);
        lines.extend(sentence.into_iter().enumerate().map(|(row, words)| match row {
            0 => format!("{:>3}  {words}", refusal.number()),
            _ => format!("     {words}"),
        }));
    }
    lines.join("\n")
}
