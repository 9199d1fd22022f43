//! What came up of the calls that keep an account.

use second::account::{FIGURES, FIRM_ROW, MOST_FIGURE, NUMBERS};
use second::unit::Unit;

use crate::pair::Pair;
use crate::running::foreseen;
use crate::scripts::{Kind, Step};
use crate::{Row, SIZE};

/// The figures of a row.
pub const COLUMNS: &[&str] = &["accepted", "rejected", "fills", "contracts", "notional", "cuts", "trips", "away reports"];
/// Accounted calls that were not refused.
pub const DONE: &[&str] = &["order", "lockout", "offer", "send", "report", "close"];
/// Their verdicts.
pub const VERDICTS: &[&str] = &["0 of an order", "1", "2", "0 of an offer", "1", "2", "0 of a sending", "1", "2"];
/// The accounts before accounted calls.
pub const BEFORE: &[&str] = &["zeros alone", "a figure near the most", "a figure above it", "more numbers than it need be"];
/// Refused with 1, and why.
pub const SHORT: &[&str] = &["the state", "the account", "both"];
/// Refused with 2, and why.
pub const UNSOUND: &[&str] = &["the state", "a root's row", "a row without a root", "the firm's row", "both"];
/// Figures that would pass the most: one alone, by its column, or more than one.
pub const PASSED: &[&str] =
    &["accepted", "rejected", "fills", "contracts", "notional", "cuts", "trips", "away reports", "more than one figure"];
/// The same of the firm; where more than one would pass, a root's comes first.
pub const PASSED_FIRM: &[&str] = COLUMNS;
/// Accounted, not refused, and no figure rose.
pub const NOWHERE: &[&str] = &["a lockout", "a closing", "a locked-out offer"];
/// Refused with another number, while some figure is at the most.
pub const OTHERS: &[&str] = &["12", "13", "14", "15", "17", "18", "19"];

/// The groups, numbered from the first of them.
const DONE_PLACE: usize = 0;
const VERDICTS_PLACE: usize = 1;
const BEFORE_PLACE: usize = 2;
const SHORT_PLACE: usize = 3;
const UNSOUND_PLACE: usize = 4;
const ROSE_PLACE: usize = 5;
const ROSE_FIRM_PLACE: usize = 6;
const REACHED_PLACE: usize = 7;
const PASSED_PLACE: usize = 8;
const PASSED_FIRM_PLACE: usize = 9;
const NOWHERE_PLACE: usize = 10;
const OTHERS_PLACE: usize = 11;

/// The most that one event adds to a figure.
const MOST_ADDED: u64 = 100_000_000_000_000;

/// The groups and places of an account before a call.
pub fn before(account: &[u64], length: usize) -> Vec<(usize, usize)> {
    let figures = &account[..NUMBERS];
    let holds = [
        figures.iter().all(|figure| *figure == 0),
        figures.iter().any(|figure| (MOST_FIGURE - MOST_ADDED..=MOST_FIGURE).contains(figure)),
        is_above(figures),
        length > NUMBERS,
    ];
    (0..holds.len()).filter(|place| holds[*place]).map(|place| (BEFORE_PLACE, place)).collect()
}

/// Is a figure above the most?
fn is_above(figures: &[u64]) -> bool {
    figures.iter().any(|figure| *figure > MOST_FIGURE)
}

/// The groups and places of an accounted call, by its row, the account before it and what it left.
pub fn seen(step: &Step, row: Row, before: &[u64], pair: &mut Pair) -> Vec<(usize, usize)> {
    let figures = &before[..NUMBERS];
    match row[0] {
        0 => done(step, row, figures, pair.account().0),
        1 => vec![(SHORT_PLACE, short(pair))],
        2 => vec![(UNSOUND_PLACE, unsound(figures, pair))],
        21 => vec![passed(step, figures, pair.second().unit())],
        other => {
            let place = OTHERS.iter().position(|name| *name == other.to_string());
            let is_beside = figures.contains(&MOST_FIGURE);
            place.filter(|_| is_beside).map(|place| (OTHERS_PLACE, place)).into_iter().collect()
        }
    }
}

/// Which memory is short.
fn short(pair: &mut Pair) -> usize {
    match (pair.second().length() < SIZE, pair.account().1 < NUMBERS) {
        (true, false) => 0,
        (false, true) => 1,
        (true, true) => 2,
        (false, false) => unreachable!("1 with enough of both"),
    }
}

/// Which memory is not sound, and where the first figure above the most stands.
fn unsound(figures: &[u64], pair: &mut Pair) -> usize {
    let first = figures.iter().position(|figure| *figure > MOST_FIGURE).map(|place| place / FIGURES);
    let roots = pair.second().unit().armed.as_ref().map_or(0, |armed| armed.roots.len());
    match (pair.second().is_unsound(), first) {
        (true, Some(_)) => 4,
        (true, None) => 0,
        (false, Some(FIRM_ROW)) => 3,
        (false, Some(row)) if row >= roots => 2,
        (false, Some(_)) => 1,
        (false, None) => unreachable!("2 with both sound"),
    }
}

/// A call that was not refused: its kind and verdict, the figures that rose and those that reached the most.
fn done(step: &Step, row: Row, before: &[u64], after: &[u64]) -> Vec<(usize, usize)> {
    let kinds = [Kind::Order, Kind::Lockout, Kind::Offer, Kind::Send, Kind::Report, Kind::Close];
    let mut seen: Vec<(usize, usize)> =
        kinds.iter().position(|kind| *kind == step.kind).map(|place| (DONE_PLACE, place)).into_iter().collect();
    let judged = [Kind::Order, Kind::Offer, Kind::Send].iter().position(|kind| *kind == step.kind);
    seen.extend(judged.map(|place| (VERDICTS_PLACE, 3 * place + row[1] as usize)));
    for place in (0..NUMBERS).filter(|place| before[*place] != after[*place]) {
        let is_firm = place / FIGURES == FIRM_ROW;
        seen.push((if is_firm { ROSE_FIRM_PLACE } else { ROSE_PLACE }, place % FIGURES));
        seen.extend((after[place] == MOST_FIGURE).then_some((REACHED_PLACE, place % FIGURES)));
    }
    if before == &after[..NUMBERS] {
        let place = match step.kind {
            Kind::Lockout => 0,
            Kind::Close => 1,
            _ => 2,
        };
        seen.push((NOWHERE_PLACE, place));
    }
    seen
}

/// The figure that a refused event would make pass the most, or that there are more.
fn passed(step: &Step, before: &[u64], unit: &Unit) -> (usize, usize) {
    let event = step.event().expect("an event");
    let (_, added) = foreseen(unit, event);
    let passing: Vec<usize> = (0..NUMBERS).filter(|place| before[*place] + added[*place] > MOST_FIGURE).collect();
    let group = |place: usize| if place / FIGURES == FIRM_ROW { PASSED_FIRM_PLACE } else { PASSED_PLACE };
    match passing[..] {
        [] => unreachable!("21 and no figure would pass: {step}"),
        [place] => (group(place), place % FIGURES),
        [first, ..] => (group(first), FIGURES),
    }
}
