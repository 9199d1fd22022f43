//! A profile looked at before or after it arms a state: its rules in words and warnings, or what is wrong and where.

use crate::explain;
use crate::library::state::State;
use crate::profile::{Measure, Profile, Rule, Scope};
use crate::words::{self, counted, listed};
use mbrumzheg::ArmRefusal;

/// How many warnings are said.
const MOST_WARNINGS: usize = 8;

/// What a profile comes to: all its rules in words, or an error with what is wrong.
pub fn check(name: &str, text: &[u8]) -> Result<String, String> {
    match State::armed(text) {
        Ok(_) => {
            let profile = Profile::of_accepted(text);
            let said = said(&profile, profile.rules.len());
            Ok(format!("{name} is good: firm {}, {}\n{said}", profile.firm, sizes(&profile)))
        }
        Err(why) => {
            let first = explain::refused(text, why);
            let all: Vec<String> = std::iter::once(first).chain(explain::further(text, why)).collect();
            Err(format!("{}\n{name} arms no unit  {}", all.join("\n"), numbers(why)))
        }
    }
}

/// Why a profile arms no state, with the library's numbers.
pub fn refused(text: &[u8], why: ArmRefusal) -> String {
    format!("{}\nnot armed  {}", explain::refused(text, why), numbers(why))
}

/// What a state was armed with, with at most so many rules in words.
pub fn armed(profile: &Profile, most: usize) -> String {
    let (firm, rules, roots) = (&profile.firm, profile.rules.len(), profile.roots.len());
    let head = format!("armed for firm {firm}, {}  [armed {firm} {rules} {roots}]", sizes(profile));
    format!("{head}\n{}", said(profile, most))
}

/// Why a state was not armed, and what to do.
pub fn not_armed(file: &str, text: &[u8], why: ArmRefusal) -> String {
    let mend = match why.line {
        Some(line) => format!("mend line {line} of {file}"),
        None => format!("put 1 to 65,536 bytes of rules into {file}"),
    };
    format!("{}\nnot armed; {mend} and type arm {file}  {}", explain::refused(text, why), numbers(why))
}

fn numbers(why: ArmRefusal) -> String {
    format!("[refused {} {}]", why.refusal.number(), why.line.unwrap_or(0))
}

fn sizes(profile: &Profile) -> String {
    let names = if profile.roots.is_empty() { String::new() } else { format!(": {}", listed(&profile.roots)) };
    format!("{} and {}{names}", counted(profile.rules.len(), "rule"), counted(profile.roots.len(), "root"))
}

/// The rules in words, at most so many, and the warnings.
fn said(profile: &Profile, most: usize) -> String {
    let mut lines: Vec<String> = profile.rules.iter().take(most).map(|rule| rule_line(profile, rule)).collect();
    if profile.rules.len() > most {
        lines.push(format!("  and {}; check FILE says them all", counted(profile.rules.len() - most, "rule")));
    }
    let warnings = explain::warnings(&profile.text);
    lines.extend(warnings.iter().take(MOST_WARNINGS).map(|warning| warning.shown(&profile.text)));
    if warnings.len() > MOST_WARNINGS {
        lines.push(format!("  and {} like these", counted(warnings.len() - MOST_WARNINGS, "warning")));
    }
    lines.join("\n")
}

fn rule_line(profile: &Profile, rule: &Rule) -> String {
    format!("  rule {}  {}", rule.number, meaning(profile, rule, rule.scope))
}

/// A rule in words: for which fills, how much, and in which time.
pub fn meaning(profile: &Profile, rule: &Rule, of: Scope) -> String {
    let limit = match rule.measure {
        Measure::Notional => rule.amount(rule.limit).to_string(),
        Measure::Volume => counted(rule.limit as usize, "contract"),
        Measure::Count => counted(rule.limit as usize, "execution"),
    };
    let time = rule.window.map_or_else(|| "the day".to_string(), words::span);
    format!("{}: at most {limit} in {time}", profile.scope_words(of))
}
