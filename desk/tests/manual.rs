//! The manual page is well formed, and says what the program has.
#[path = "common/skipped.rs"]
mod skipped;
use desk::program::USAGE;
use desk::typed::topics::COMMANDS;
use std::process::{Command, Stdio};

const PAGE: &str = include_str!("../desk.1");

/// The page as a terminal would show it; nothing where the machine cannot format it.
fn formatted() -> Option<String> {
    let file = concat!(env!("CARGO_MANIFEST_DIR"), "/desk.1");
    let run = Command::new("groff").args(["-man", "-Tascii", "-P-cbou", "-ww", "-rLL=100n", file]).stdin(Stdio::null()).output();
    let Ok(output) = run else {
        skipped::skipped("the desk's manual page, since there is no groff to format it");
        return None;
    };
    assert_eq!(String::from_utf8_lossy(&output.stderr), "", "groff has no warning");
    assert!(output.status.success());
    Some(String::from_utf8_lossy(&output.stdout).into_owned())
}

#[test]
fn the_manual_page_has_every_command_and_call() {
    let Some(text) = formatted() else { return };
    let text = text.split_whitespace().collect::<Vec<_>>().join(" ");
    for topic in &COMMANDS {
        assert!(text.contains(topic.form), "no '{}' in {text}", topic.form);
    }
    let calls = USAGE.lines().filter_map(|line| line.split_once("desk ")).filter_map(|(_, rest)| rest.split_whitespace().next());
    for call in calls.filter(|word| word.chars().all(|c| c.is_ascii_lowercase() || c == '-')) {
        assert!(text.contains(call), "no '{call}'");
    }
    for word in ["NO_COLOR", "DESK_HISTORY", "EXIT STATUS"] {
        assert!(PAGE.contains(word), "no '{word}'");
    }
}
