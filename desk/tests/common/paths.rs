//! The paths that a text of Rust names, and the files of a folder.

use std::path::Path;

/// The files of Rust in a folder and the folders in it, by their paths from there.
pub fn files(folder: &Path) -> Vec<(String, String)> {
    let mut found = Vec::new();
    for entry in std::fs::read_dir(folder).expect("a folder").map(|entry| entry.expect("an entry")) {
        let name = entry.file_name().into_string().expect("a name");
        if entry.path().is_dir() {
            found.extend(files(&entry.path()).into_iter().map(|(path, text)| (format!("{name}/{path}"), text)));
        } else if name.ends_with(".rs") {
            found.push((name, std::fs::read_to_string(entry.path()).expect("a text")));
        }
    }
    found
}

/// A text without the lines that are comments.
pub fn code(text: &str) -> String {
    text.lines().filter(|line| !line.trim_start().starts_with("//")).map(|line| format!("{line}\n")).collect()
}

/// The paths that begin with a name, without it: those in braces each for itself.
pub fn within(text: &str, first: &str) -> Vec<Vec<String>> {
    let (code, start) = (code(text), format!("{first}::"));
    let begins = |at: &usize| !code[..*at].ends_with(|c: char| c.is_alphanumeric() || c == '_' || c == ':');
    let places = code.match_indices(&start).map(|(at, _)| at).filter(begins);
    places.flat_map(|at| after(&code[at + start.len()..]).0).collect()
}

/// The paths that a room's own file hands on from others of the room.
pub fn re_exported(text: &str, room: &str) -> Vec<Vec<String>> {
    let code = code(text);
    let used = code.lines().filter_map(|line| line.strip_prefix("pub use ").or(line.strip_prefix("use ")));
    used.filter(|path| !path.starts_with("crate::"))
        .flat_map(|path| after(path).0)
        .map(|path| [vec![room.to_string()], path].concat())
        .collect()
}

/// The paths at the start of a text, and what stands after them.
fn after(text: &str) -> (Vec<Vec<String>>, &str) {
    let text = text.trim_start();
    if let Some(inner) = text.strip_prefix('{') {
        return in_braces(inner);
    }
    let end = text.find(|c: char| !c.is_alphanumeric() && c != '_').unwrap_or(text.len());
    let (name, rest) = text.split_at(end);
    match rest.strip_prefix("::") {
        Some(further) => {
            let (paths, rest) = after(further);
            (paths.into_iter().map(|path| [vec![name.to_string()], path].concat()).collect(), rest)
        }
        None => (vec![vec![name.to_string()]], rest),
    }
}

/// The paths up to the brace that closes.
fn in_braces(mut text: &str) -> (Vec<Vec<String>>, &str) {
    let mut all = Vec::new();
    loop {
        text = text.trim_start().trim_start_matches(',').trim_start();
        if text.is_empty() {
            return (all, text);
        }
        if let Some(rest) = text.strip_prefix('}') {
            return (all, rest);
        }
        let (paths, rest) = after(text);
        all.extend(paths);
        // what is no name and no brace ends the list
        text = if rest.len() < text.len() { rest } else { "" };
    }
}
