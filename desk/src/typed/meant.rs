//! What to type in place of a word that is no command.

use crate::typed::topics::{COMMANDS, ORDER_FORM};
use crate::words::{nearest, shortened};

/// Words of other tools, which no command has here.
const OTHER_WORDS: [&str; 3] = ["unlock", "load", "reset"];

/// The advice on a word that is no command, by the word that it is nearest to.
pub fn no_command(name: &str) -> String {
    let known: Vec<&str> = OTHER_WORDS.into_iter().chain(COMMANDS.iter().map(|topic| topic.name)).collect();
    let advice = match nearest(name, &known) {
        Some("unlock") => "type order TIME ROOT reset t to unlock a root, or order TIME ROOT reset e to unlock the firm".to_string(),
        Some("load") => "type arm FILE to take the profile in FILE".to_string(),
        Some("reset") => format!("a reset comes with an order: type {ORDER_FORM}"),
        Some(command) => format!("type help for the list (did you mean {command}?)"),
        None => "type help for the list".to_string(),
    };
    format!("'{}' is no command; {advice}", shortened(name))
}
