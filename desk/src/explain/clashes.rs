//! Lines that are well formed and clash with the first line, a range, or themselves.

use crate::explain::fault::Fault;
use crate::explain::fields::{Fields, CALL_PUT, FIRM, LEVEL, LIMIT, MONTH, NAMES, ROOT, TIME};
use crate::words::grouped;
use mbrumzheg::Refusal::{LevelClash, OtherFirm, OutOfRange, UnitClash};

const MOST_DOLLARS: u64 = 100_000_000_000;
const MOST_PIECES: u64 = 1_000_000_000;
const MOST_WINDOW: u64 = 86_400_000;

/// What a well-formed line clashes with, where line 1 names the firm `first`.
pub fn faults(fields: &Fields, first: &str) -> Vec<Fault> {
    let all = [other_firm(fields, first), limit(fields), window(fields), level(fields), unit(fields)];
    all.into_iter().flatten().collect()
}

fn other_firm(fields: &Fields, first: &str) -> Option<Fault> {
    let words = format!("this line is for firm {}, and those before it are for {first}: a profile is for one firm", fields.text(FIRM));
    (fields.text(FIRM) != first).then(|| Fault::new(OtherFirm, fields.span(FIRM), words))
}

fn limit(fields: &Fields) -> Option<Fault> {
    let (most, unit) = match fields.kind() {
        Some("rate_ntnl" | "abs_ntnl") => (MOST_DOLLARS, "dollars"),
        Some("rate_count" | "abs_count") => (MOST_PIECES, "executions"),
        _ => (MOST_PIECES, "contracts"),
    };
    let limit = fields.text(LIMIT).parse::<u64>().unwrap_or(0);
    let words = match limit {
        0 => format!("a limit of 0; the least is 1, the most {} {unit}", grouped(most)),
        limit => format!("a limit of {}; the most is {} {unit}", grouped(limit), grouped(most)),
    };
    (limit == 0 || limit > most).then(|| Fault::new(OutOfRange, fields.span(LIMIT), words))
}

fn window(fields: &Fields) -> Option<Fault> {
    let window = fields.text(TIME).parse::<u64>().unwrap_or(0);
    let words = format!("a time limit of {} ms; the most is {}, the milliseconds of a day", grouped(window), grouped(MOST_WINDOW));
    (!fields.is_absolute() && window > MOST_WINDOW).then(|| Fault::new(OutOfRange, fields.span(TIME), words))
}

fn level(fields: &Fields) -> Option<Fault> {
    let (root, level) = (fields.text(ROOT), fields.text(LEVEL));
    match (root.is_empty(), level == "T") {
        (false, true) => {
            let words = format!("the line names root {root} and has T for the whole firm; leave one of them out");
            Some(Fault::new(LevelClash, fields.span(LEVEL), words))
        }
        (true, false) if level.is_empty() => {
            let words = "no root and no T: name a root, or write T in the sixth field for the whole firm";
            Some(Fault::new(LevelClash, fields.span(ROOT), words))
        }
        (true, false) => {
            let words = format!("no root, and the firm level is {} where T alone means the whole firm", what_for_t(&level));
            Some(Fault::new(LevelClash, fields.span(LEVEL), words))
        }
        _ => None,
    }
}

/// What stands where T should.
fn what_for_t(level: &str) -> &'static str {
    match level {
        "t" => "a small t",
        "T\r" => "T and then CR, as lines from Windows have it,",
        _ if level.trim() == "T" => "T with a blank",
        _ if level.ends_with('\r') => "not T but ends with CR, as lines from Windows do,",
        _ => "something else",
    }
}

fn unit(fields: &Fields) -> Option<Fault> {
    let (call_put, month) = (fields.text(CALL_PUT), fields.text(MONTH));
    let missing = match (call_put.is_empty(), month.is_empty()) {
        (true, true) => return None,
        (false, false) if !fields.is_firm_level() => return None,
        (false, false) => {
            let words = "a firm rule covers every unit; leave call/put and month empty";
            return Some(Fault::new(UnitClash, fields.span(CALL_PUT).start..fields.span(MONTH).end, words));
        }
        (true, false) => CALL_PUT,
        (false, true) => MONTH,
    };
    let set = CALL_PUT + MONTH - missing;
    let words = format!("the {} is set and the {} is not; set both, or neither for all four units", NAMES[set], NAMES[missing]);
    Some(Fault::new(UnitClash, fields.span(missing), words))
}
