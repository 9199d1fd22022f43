//! The desk's files as a house: each folder is a room, and the head of its `mod.rs` says which rooms it may use.

use super::paths;
use std::collections::{BTreeMap, BTreeSet};
use std::path::Path;

/// What every room may name of the library's crate: values, which call nothing on a state or a record.
const VALUES: [&str; 23] = [
    "Account",
    "Answer",
    "ArmRefusal",
    "Closing",
    "Column",
    "Contracts",
    "Event",
    "Figures",
    "Identity",
    "Level",
    "Marks",
    "Offer",
    "Premium",
    "RECORD16_SIZE",
    "Refusal",
    "Report",
    "Reset",
    "Root",
    "Sending",
    "Status",
    "Time",
    "UnitOfRoot",
    "Verdict",
];
/// The room that calls the library.
const CALLING: &str = "library";
/// What a room's head has before the rooms that it may use, and what it has after it where there are none.
const MAY_USE: &str = "//! May use: ";
const NONE: &str = "no other room";

/// The files by their paths, each without what it has for tests alone.
pub struct House {
    files: BTreeMap<String, String>,
}

impl House {
    /// The house of some files: paths from the folder of sources, and texts.
    pub fn of<'a>(files: impl IntoIterator<Item = (&'a str, &'a str)>) -> House {
        let without_tests = |text: &str| text.split("#[cfg(test)]").next().unwrap_or_default().to_string();
        House { files: files.into_iter().map(|(path, text)| (path.to_string(), without_tests(text))).collect() }
    }

    /// The house of a folder.
    pub fn read(folder: &Path) -> House {
        let texts = paths::files(folder);
        House::of(texts.iter().map(|(path, text)| (path.as_str(), text.as_str())))
    }

    /// How many rooms there are.
    pub fn rooms(&self) -> usize {
        self.files.keys().filter_map(|path| room(path)).collect::<BTreeSet<_>>().len()
    }

    /// Everything that is wrong, in words.
    pub fn faults(&self) -> Vec<String> {
        let heads = self.heads();
        let mut faults: Vec<String> = self.files.keys().flat_map(|path| self.faults_of(path, &heads)).collect();
        faults.extend(heads.iter().flat_map(|(room, allowed)| self.unneeded(room, allowed)));
        faults.extend(circle(&heads).map(|rooms| format!("the rooms may go in a circle: {}", rooms.join(" -> "))));
        faults.extend(circle(&self.arrows()).map(|files| format!("the files go in a circle: {}", files.join(" -> "))));
        faults
    }

    /// By room, which others its head says that it may use.
    fn heads(&self) -> BTreeMap<String, BTreeSet<String>> {
        let rooms: BTreeSet<&str> = self.files.keys().filter_map(|path| room(path)).collect();
        let of_room = |room: &&str| {
            let head = self.files.get(&format!("{room}/mod.rs"))?.lines().find_map(|line| line.strip_prefix(MAY_USE))?;
            let named = head.trim_end_matches('.').split(", ").filter(|name| *name != NONE).map(str::to_string);
            Some((room.to_string(), named.collect()))
        };
        rooms.iter().filter_map(of_room).collect()
    }

    fn faults_of(&self, path: &str, heads: &BTreeMap<String, BTreeSet<String>>) -> Vec<String> {
        let Some(own) = room(path) else { return Vec::new() };
        let Some(allowed) = heads.get(own) else { return vec![format!("{path}: the room {own} does not say which rooms it may use")] };
        let text = &self.files[path];
        let mut faults = Vec::new();
        for used in paths::within(text, "crate").iter().filter_map(|names| names.first()) {
            if used != own && !allowed.contains(used) {
                faults.push(format!("{path}: the room {own} may not use {used}"));
            }
        }
        if paths::code(text).contains("super::") {
            faults.push(format!("{path}: a path from super, which hides what is used"));
        }
        if own != CALLING {
            faults.extend(
                calls(text).into_iter().map(|call| format!("{path}: {call} calls the library, for which there is the room {CALLING}")),
            );
        }
        faults
    }

    /// What a head allows and no file of the room needs.
    fn unneeded(&self, own: &str, allowed: &BTreeSet<String>) -> Vec<String> {
        let texts = self.files.iter().filter(|(path, _)| room(path) == Some(own)).map(|(_, text)| text);
        let used: BTreeSet<String> =
            texts.flat_map(|text| paths::within(text, "crate")).filter_map(|names| names.first().cloned()).collect();
        allowed.difference(&used).map(|other| format!("the room {own} may use {other} and does not")).collect()
    }

    /// By file, which others it uses.
    fn arrows(&self) -> BTreeMap<String, BTreeSet<String>> {
        let used = |(path, text): (&String, &String)| {
            let from_crate = paths::within(text, "crate").into_iter();
            let of_room = room(path).filter(|_| path.ends_with("/mod.rs"));
            let re_exported = of_room.into_iter().flat_map(|room| paths::re_exported(text, room));
            let files = from_crate.chain(re_exported).filter_map(|names| self.file(&names)).filter(|file| file != path);
            (path.clone(), files.collect())
        };
        self.files.iter().map(used).collect()
    }

    /// The file that a path from the crate leads to.
    fn file(&self, names: &[String]) -> Option<String> {
        let [first, rest @ ..] = names else { return None };
        let candidates =
            [rest.first().map(|second| format!("{first}/{second}.rs")), Some(format!("{first}/mod.rs")), Some(format!("{first}.rs"))];
        candidates.into_iter().flatten().find(|path| self.files.contains_key(path))
    }
}

/// The room of a file; none for those that stand above the rooms.
fn room(path: &str) -> Option<&str> {
    path.split_once('/').map(|(room, _)| room)
}

/// What a text names of the library's crate that is no value, and its calls on records.
fn calls(text: &str) -> Vec<String> {
    let named = paths::within(text, "mbrumzheg").into_iter().filter_map(|names| names.first().cloned());
    let on_records = ["to_record", "from_record"].into_iter().filter(|call| paths::code(text).contains(call)).map(str::to_string);
    named.filter(|name| !VALUES.contains(&name.as_str())).chain(on_records).collect()
}

/// A circle among arrows, its first name again at its end.
fn circle(arrows: &BTreeMap<String, BTreeSet<String>>) -> Option<Vec<String>> {
    let mut open: BTreeMap<String, BTreeSet<String>> = arrows.clone();
    // whoever uses nobody that is left is in no circle
    while let Some(done) = open.iter().find(|(_, used)| used.iter().all(|name| !open.contains_key(name))).map(|(name, _)| name.clone()) {
        open.remove(&done);
    }
    let mut walked = vec![open.keys().next()?.clone()];
    loop {
        let next = open[&walked[walked.len() - 1]].iter().find(|name| open.contains_key(*name))?.clone();
        if let Some(start) = walked.iter().position(|name| *name == next) {
            return Some(walked.split_off(start).into_iter().chain([next]).collect());
        }
        walked.push(next);
    }
}
