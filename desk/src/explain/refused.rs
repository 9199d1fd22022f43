//! Why a profile is refused: the library's number and line, and beside them the faults that this reading finds in that line.

use crate::explain::fault::{lines, Fault};
use crate::explain::fields::{Fields, FIRM};
use crate::explain::show::shown;
use crate::explain::{clashes, counts, malformed};
use crate::profile::Profile;
use mbrumzheg::ArmRefusal;

/// Every fault that a line, from 1, has after the lines before it, which must be good.
pub fn faults(text: &[u8], line: usize) -> Vec<Fault> {
    let all = lines(text);
    let Some(content) = line.checked_sub(1).and_then(|place| all.get(place)) else { return Vec::new() };
    let fields = Fields::of(content);
    let malformed = malformed::faults(&fields);
    if !malformed.is_empty() {
        return malformed;
    }
    let first = all.first().map(|first| Fields::of(first).text(FIRM)).unwrap_or_default();
    let mut found = clashes::faults(&fields, &first);
    if found.is_empty() {
        found.extend(counts::fault(&fields, &before(&all, line)));
    }
    found
}

/// The profile that the lines before a line make.
fn before(all: &[&[u8]], line: usize) -> Profile {
    match all[..line - 1].join(&b'\n') {
        text if text.is_empty() => Profile::default(),
        text => Profile::of_accepted(&text),
    }
}

/// The faults that stand behind the library's refusal of a text.
pub fn of_refusal(text: &[u8], why: ArmRefusal) -> Vec<Fault> {
    let line = why.line.map_or(0, |line| line as usize);
    faults(text, line).into_iter().filter(|fault| fault.refusal == why.refusal).collect()
}

/// Why a profile is refused: the library's sentence, then the line with a mark under each fault.
pub fn refused(text: &[u8], why: ArmRefusal) -> String {
    let mut said = vec![why.to_string()];
    match why.line {
        Some(line) => {
            let content = lines(text).get(line as usize - 1).copied().unwrap_or_default();
            said.extend(shown(line as usize, content, &of_refusal(text, why)));
        }
        None if text.is_empty() => said.push("  there is nothing in it: write one rule a line, like ABCD,abs_vol,XYZ,1000".to_string()),
        None => said.push("  it is too long: a profile has at most 256 rules, one a line".to_string()),
    }
    said.join("\n")
}
