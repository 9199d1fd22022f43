//! Orders sent away, in words: what became of them, and what to type after a refusal.

use crate::answers::locked::rejected;
use crate::profile::Profile;
use crate::session::passed::Passed;
use crate::session::register::{Away, Register};
use crate::session::sitting::Sitting;
use crate::typed::topics::{AWAY_FORM, CLOSE_FORM};
use crate::words::{self, at_premium, counted, grouped, listed};
use mbrumzheg::{Event, Identity, Refusal, Sending};

/// What became of an order sent away, or of one that was not sent since something is locked.
pub fn sentence(sitting: &Sitting, passed: &Passed) -> String {
    let (Some(event), Ok(answer)) = (&passed.event, &passed.answer) else { return String::new() };
    match (event, passed.away) {
        (Event::Send(sending), None) => {
            let asked = at_premium(sending.contracts, sending.premium);
            format!("{}, order {} not sent: {asked}", rejected(sitting, answer.verdict, sending.root), sending.identity)
        }
        (Event::Send(sending), Some(_)) => {
            let (contracts, on) = (grouped(sending.contracts.count()), on(&sitting.profile, sending));
            let kept = places(&sitting.profile, sending.reports.count(), "kept");
            let reports = counted(sending.reports.count() as usize, "report");
            format!(
                "order {} sent away: {contracts} of {on} at ${}, {reports} allowed{kept}",
                sending.identity,
                words::premium(sending.premium)
            )
        }
        (Event::Report(report), Some(order)) => {
            let (contracts, on) = (grouped(report.contracts.count()), on(&sitting.profile, &order.sent));
            let covered = if passed.covered { "" } else { ", no rule covers it" };
            format!("{contracts} of order {} came back on {on}, {}{covered}", report.identity, left(&order))
        }
        (Event::Close(closing), Some(order)) => {
            let (back, all) = (grouped(order.back()), grouped(order.sent.contracts.count()));
            let free = places(&sitting.profile, order.reports, "free again");
            format!("order {} closed, {back} of {all} had come back{free}", closing.identity)
        }
        _ => String::new(),
    }
}

/// What an order was sent on.
pub fn on(profile: &Profile, sending: &Sending) -> String {
    format!("{} {}", profile.root_name(sending.root.number()), words::unit(sending.unit))
}

/// What is left of an order.
pub fn left(order: &Away) -> String {
    format!("{} open and {} left", counted(order.open as usize, "contract"), counted(order.reports as usize, "report"))
}

/// The places of the log that reports keep, where the profile has a log.
fn places(profile: &Profile, reports: u64, what: &str) -> String {
    match profile.has_rate() {
        true if reports > 0 => format!(", {} {what}", counted(reports as usize, "log place")),
        _ => String::new(),
    }
}

/// An order that is open, for a list.
pub fn line(profile: &Profile, order: &Away) -> String {
    let sent = &order.sent;
    let (on, premium) = (on(profile, sent), words::premium(sent.premium));
    format!(
        "order {}: {} of {} came back on {on} at ${premium}, {}",
        sent.identity,
        grouped(order.back()),
        grouped(sent.contracts.count()),
        left(order)
    )
}

/// What to type after a refusal of an event of an order sent away, or for want of places that such orders keep.
pub fn advice(register: &Register, event: &Event, refusal: Refusal) -> String {
    let order = |identity: Identity| register.order(identity);
    let open: Vec<String> = register.orders().iter().map(|order| order.sent.identity.to_string()).collect();
    match (refusal, event) {
        (Refusal::RegisterFull, _) => format!("; type {CLOSE_FORM} for one of {}", listed(&open)),
        (Refusal::IdentityClash, Event::Send(sending)) => {
            let left = order(sending.identity).map(left).unwrap_or_default();
            format!("; order {} has {left}: close it first, or type another identity", sending.identity)
        }
        (Refusal::IdentityClash, _) if open.is_empty() => format!("; no order is open: type {AWAY_FORM}"),
        (Refusal::IdentityClash, _) => format!("; open: {}", listed(&open)),
        (Refusal::OverReported, Event::Report(report)) => {
            order(report.identity).map_or_else(String::new, |order| format!("; order {} has {}", report.identity, left(order)))
        }
        (Refusal::LogFull, event) => {
            let fewer = if matches!(event, Event::Send(_)) { ", allow fewer reports" } else { "" };
            let close = match register.reports() {
                0 => String::new(),
                kept => format!(", or close an order sent away, since {} are kept", counted(kept as usize, "place")),
            };
            format!("; type a time at which the longest window has passed over the oldest fill{fewer}{close}")
        }
        _ => String::new(),
    }
}
