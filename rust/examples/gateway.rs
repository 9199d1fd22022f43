//! A gateway in small: it arms a unit from a profile and says, for each event record of the day, what becomes of the order or the fill.
//!
//!     cargo run --example gateway -- PROFILE RECORDS [STATE]
//!
//! STATE is a file for the unit's memory. If it is there, the day goes on from it, as after a restart; at the end the memory is written to it.

use mbrumzheg::{Adopted, Answer, Armed, Event, Level, Records16, Refusal, Unit};
use std::error::Error;
use std::path::Path;
use std::process::ExitCode;
use std::{env, fs};

type ArmedUnit = Unit<Vec<u64>, Armed>;

fn main() -> ExitCode {
    let words: Vec<String> = env::args().skip(1).collect();
    let done = match words.iter().map(Path::new).collect::<Vec<_>>()[..] {
        [profile, records] => run(profile, records, None),
        [profile, records, state] => run(profile, records, Some(state)),
        _ => Err("usage: gateway PROFILE RECORDS [STATE]".into()),
    };
    match done {
        Ok(()) => ExitCode::SUCCESS,
        Err(error) => {
            eprintln!("gateway: {error}");
            ExitCode::FAILURE
        }
    }
}

/// Runs the records of a file.
fn run(profile: &Path, records: &Path, state: Option<&Path>) -> Result<(), Box<dyn Error>> {
    let mut unit = match state.filter(|state| state.exists()) {
        Some(state) => restarted(&fs::read(state)?)?,
        None => Unit::cleared(vec![0; mbrumzheg::SIZE])?.arm(fs::read(profile)?).map_err(|refused| refused.why)?,
    };
    println!("armed for firm {} (rules: {}, roots: {}), clock {}", unit.firm(), unit.rule_count(), unit.root_count(), unit.clock());
    for record in Records16::new(&fs::read(records)?) {
        println!("{}", record.and_then(|event| passed(&mut unit, event)).unwrap_or_else(|refusal| format!("not passed on: {refusal}")));
    }
    if let Some(state) = state {
        let bytes: Vec<u8> = unit.memory().iter().flat_map(|number| number.to_le_bytes()).collect();
        fs::write(state, bytes)?;
    }
    Ok(())
}

/// A unit on memory that was saved. The library tests the whole state before the first order passes.
fn restarted(bytes: &[u8]) -> Result<ArmedUnit, Box<dyn Error>> {
    let numbers: Vec<u64> =
        bytes.chunks_exact(8).map(|eight| eight.iter().rev().fold(0, |all, byte| all << 8 | u64::from(*byte))).collect();
    match Unit::adopt(numbers)? {
        Adopted::Armed(unit) => Ok(unit),
        Adopted::Unarmed(_) => Err(Refusal::NotArmed.into()),
    }
}

/// Asks the unit, and says what the gateway does. A refused call has changed nothing, and its order or fill goes nowhere.
fn passed(unit: &mut ArmedUnit, event: Event) -> Result<String, Refusal> {
    let answer = unit.answer(event)?;
    Ok(format!("{} {}: {}", event.time(), subject(unit, event), action(event, answer)))
}

/// What an event is about.
fn subject(unit: &ArmedUnit, event: Event) -> String {
    let name = |root| unit.roots().find(|(known, _)| *known == root).map(|(_, name)| name.to_string()).unwrap_or_default();
    match event {
        Event::Order { root, .. } => format!("order on {}", name(root)),
        Event::Offer(offer) => format!("fill of {} {} at {} on {}", offer.contracts, offer.unit, offer.premium, name(offer.root)),
        Event::Lockout { level: Level::Root(root), .. } => format!("lockout of {}", name(root)),
        Event::Lockout { level: Level::Firm, .. } => "lockout of the firm".to_string(),
        Event::Send(sending) => format!("order {} of {} sent away on {}", sending.identity, sending.contracts, name(sending.root)),
        Event::Report(report) => format!("report of {} on order {}", report.contracts, report.identity),
        Event::Close(closing) => format!("closing of order {}", closing.identity),
    }
}

/// What the gateway does with an event that was answered.
fn action(event: Event, answer: Answer) -> String {
    if let Some(text) = answer.verdict.text() {
        return format!("rejected, {text}");
    }
    let trips = match (answer.root_trip, answer.firm_trip) {
        (false, false) => "",
        (true, false) => "; the root is locked now",
        (false, true) => "; the firm is locked now",
        (true, true) => "; root and firm are locked now",
    };
    match event {
        Event::Order { .. } | Event::Send(_) => "sent on".to_string(),
        Event::Offer(_) => format!("{} granted{trips}", answer.grant),
        Event::Report(_) => format!("counted{trips}"),
        Event::Lockout { .. } | Event::Close(_) => "done".to_string(),
    }
}
