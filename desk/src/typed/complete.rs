//! What Tab offers for a line: commands, roots, open orders, the words that may follow, and files.

use crate::typed::help;
use crate::typed::topics::COMMANDS;
use crate::words::looks_like_time;

const TIMES: [&str; 4] = ["now", "+1ms", "+10ms", "+1s"];

/// The names that can be typed, besides words that are always the same.
#[derive(Default)]
pub struct Known {
    /// The roots of the profile.
    pub roots: Vec<String>,
    /// The identities of orders sent away that are open.
    pub open: Vec<String>,
}

/// Where the word before the cursor begins, and the words that it may become.
pub fn candidates(before: &str, known: &Known) -> (usize, Vec<String>) {
    let start = before.rfind(char::is_whitespace).map_or(0, |at| at + 1);
    let (earlier, typed) = before.split_at(start);
    let earlier: Vec<&str> = earlier.split_whitespace().collect();
    let Some((command, words)) = earlier.split_first() else {
        return (start, beginning(COMMANDS.iter().map(|topic| topic.name.to_string()), typed));
    };
    let command = command.to_ascii_lowercase();
    if let ("widen" | "narrow", [_]) = (command.as_str(), words) {
        return (start, files(typed));
    }
    if let ("arm" | "check" | "profile" | "account" | "save" | "replay" | "report" | "widen" | "narrow", []) = (command.as_str(), words) {
        return (start, files(typed));
    }
    (start, beginning(following(&command, words, known).into_iter(), typed))
}

/// The words that may follow others.
fn following(command: &str, words: &[&str], Known { roots, open }: &Known) -> Vec<String> {
    let all = |some: &[&str]| some.iter().map(|word| word.to_string()).collect::<Vec<_>>();
    let levels = || [roots.to_vec(), all(&["firm"])].concat();
    match (command, words.len()) {
        ("help" | "?", 0) => help::names().map(str::to_string).collect(),
        ("offer" | "order" | "away" | "back" | "close", 0) => all(&TIMES),
        ("offer" | "order" | "away", 1) => roots.to_vec(),
        ("back" | "close", 1) => open.to_vec(),
        ("offer" | "away", 2) => all(&["call", "put"]),
        ("offer" | "away", 3) => all(&["front", "trailing"]),
        ("order", 2) => all(&["reset"]),
        ("order", 3) => all(&["symbol", "firm", "both", "t", "e", "te"]),
        ("lock", 0) => [levels(), all(&TIMES)].concat(),
        ("lock", 1) => levels(),
        ("remaining", 0) => [levels(), all(&["rule"]), all(&TIMES)].concat(),
        ("remaining", _) => match words {
            [time] if looks_like_time(time) => [levels(), all(&["rule"])].concat(),
            [time, limit @ ..] if looks_like_time(time) => all(on_unit(limit)),
            limit => all(on_unit(limit)),
        },
        ("replay", 1) => all(&["old", "quiet"]),
        ("replay", 2) if words[1] == "old" => all(&["quiet"]),
        ("widen" | "narrow", 2) => all(&["over"]),
        ("save", 1) => all(&["words", "over"]),
        ("save", 2) if words[1] == "words" => all(&["over"]),
        ("profile" | "account", 1) => all(&["over"]),
        ("report", 1) => all(&["from"]),
        ("report", 3) => all(&["to"]),
        _ => Vec::new(),
    }
}

/// The words of a unit that may follow a root's name, or a rule's number.
fn on_unit(limit: &[&str]) -> &'static [&'static str] {
    match limit {
        ["firm"] | ["rule"] => &[],
        [_] | ["rule", _] => &["call", "put"],
        [_, _] | ["rule", _, _] => &["front", "trailing"],
        _ => &[],
    }
}

/// Those that begin with what was typed, small letters and capitals being alike.
fn beginning(words: impl Iterator<Item = String>, typed: &str) -> Vec<String> {
    let begins = |word: &String| word.get(..typed.len()).is_some_and(|start| start.eq_ignore_ascii_case(typed));
    words.filter(begins).collect()
}

/// The files and folders whose names begin as typed; a folder ends with a stroke.
fn files(typed: &str) -> Vec<String> {
    let (folder, name) = typed.rfind('/').map_or(("", typed), |at| typed.split_at(at + 1));
    let Ok(entries) = std::fs::read_dir(if folder.is_empty() { "." } else { folder }) else { return Vec::new() };
    let mut found: Vec<String> = entries
        .filter_map(|entry| entry.ok())
        .filter_map(|entry| {
            let own = entry.file_name().into_string().ok()?;
            let hidden = own.starts_with('.') && !name.starts_with('.');
            let end = if entry.path().is_dir() { "/" } else { "" };
            (own.starts_with(name) && !hidden).then(|| format!("{folder}{own}{end}"))
        })
        .collect();
    found.sort();
    found
}

#[cfg(test)]
mod tests {
    use super::{candidates, Known};

    fn known() -> Known {
        let names = |all: &[&str]| all.iter().map(|name| name.to_string()).collect();
        Known { roots: names(&["XYZ", "XQ", "7"]), open: names(&["5", "512"]) }
    }

    fn offered(before: &str) -> Vec<String> {
        candidates(before, &known()).1
    }

    #[test]
    fn words_that_may_follow() {
        assert_eq!(offered("o"), ["offer", "order"]);
        assert_eq!(offered("OF"), ["offer"]);
        assert_eq!(offered("offer 0ms x"), ["XYZ", "XQ"]);
        assert_eq!(offered("offer 0ms XYZ "), ["call", "put"]);
        assert_eq!(offered("offer 0ms XYZ call t"), ["trailing"]);
        assert_eq!(offered("order now 7 r"), ["reset"]);
        assert_eq!(offered("order now 7 reset "), ["symbol", "firm", "both", "t", "e", "te"]);
        assert_eq!(offered("order now 7 reset t"), ["t", "te"]);
        assert_eq!(offered("lock f"), ["firm"]);
        assert_eq!(offered("remaining now x"), ["XYZ", "XQ"]);
        assert_eq!(offered("remaining r"), ["rule"]);
        assert_eq!(offered("remaining +1s r"), ["rule"]);
        for before in ["remaining XYZ ", "remaining now XYZ ", "remaining rule 3 ", "remaining 10ms rule 3 "] {
            assert_eq!(offered(before), ["call", "put"], "{before}");
            assert_eq!(offered(&format!("{before}put ")), ["front", "trailing"], "{before}");
            assert_eq!(offered(&format!("{before}put front ")), [""; 0], "{before}");
        }
        assert_eq!(offered("remaining firm "), [""; 0]);
        assert_eq!(offered("remaining rule "), [""; 0]);
        assert_eq!(offered("help ref"), ["refusals"]);
        assert_eq!(offered("help res"), ["resets"]);
        assert_eq!(offered("replay day.records q"), ["quiet"]);
        assert_eq!(offered("replay day.records "), ["old", "quiet"]);
        assert_eq!(offered("replay day.records old "), ["quiet"]);
        assert_eq!(offered("wid"), ["widen"]);
        assert_eq!(offered("narrow day.records old.records "), ["over"]);
        assert_eq!(offered("save day.records "), ["words", "over"]);
        assert_eq!(offered("save day.txt words "), ["over"]);
        assert_eq!(offered("save day.txt over "), [""; 0]);
        assert_eq!(offered("prof"), ["profile"]);
        assert_eq!(offered("help prof"), ["profile"]);
        assert_eq!(offered("profile active "), ["over"]);
        assert_eq!(offered("xyz "), [""; 0]);
        assert_eq!(offered("offer 0ms é"), [""; 0]);
        assert_eq!(candidates("order now 7", &known()), (10, vec!["7".to_string()]));
        assert_eq!(offered("aw"), ["away"]);
        assert_eq!((offered("ac"), offered("account evening.csv ")), (vec!["account".to_string()], vec!["over".to_string()]));
        assert_eq!(offered("away 0ms x"), ["XYZ", "XQ"]);
        assert_eq!(offered("away now XYZ p"), ["put"]);
        assert_eq!(offered("away now XYZ put "), ["front", "trailing"]);
        assert_eq!(offered("back now 5"), ["5", "512"]);
        assert_eq!(offered("close +1s 51"), ["512"]);
        assert_eq!(offered("close n"), ["now"]);
    }

    #[test]
    fn files_by_their_beginning() {
        let here = env!("CARGO_MANIFEST_DIR");
        assert_eq!(offered(&format!("arm {here}/tests/scr")), [format!("{here}/tests/scripts.rs"), format!("{here}/tests/scripts/")]);
        assert_eq!(offered(&format!("check {here}/tests/scripts/faulty")), [format!("{here}/tests/scripts/faulty-profile")]);
        assert_eq!(offered(&format!("profile {here}/tests/scripts/empty")), [format!("{here}/tests/scripts/empty-profile")]);
        assert_eq!(offered(&format!("widen old {here}/tests/scripts/empty")), [format!("{here}/tests/scripts/empty-profile")]);
        assert_eq!(offered("save no/such/folder/"), [""; 0]);
    }
}
