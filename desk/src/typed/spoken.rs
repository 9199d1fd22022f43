//! Events in the words that would type them.

use crate::profile::Profile;
use crate::words;
use mbrumzheg::{Event, Level, Root, Sending};

/// An event in the words that would type it.
pub fn typed(profile: &Profile, event: &Event) -> String {
    let time = words::time(event.time());
    let root = |root: &Root| profile.root_name(root.number());
    match event {
        Event::Order { root: on, reset, .. } => format!("order {time} {}{}", root(on), words::reset(*reset)),
        Event::Offer(offer) => format!(
            "offer {time} {} {} {} {}",
            root(&offer.root),
            words::unit(offer.unit),
            words::premium(offer.premium),
            offer.contracts.count()
        ),
        Event::Lockout { level: Level::Root(on), .. } => format!("lock {time} {}", root(on)),
        Event::Lockout { level: Level::Firm, .. } => format!("lock {time} firm"),
        Event::Send(_) | Event::Report(_) | Event::Close(_) => typed_away(profile, event).unwrap_or_default(),
    }
}

/// An event of an order sent away in the words that would type it; none for other events.
fn typed_away(profile: &Profile, event: &Event) -> Option<String> {
    let time = words::time(event.time());
    match event {
        Event::Send(Sending { root, unit, premium, contracts, identity, reports, .. }) => {
            let (root, unit, premium) = (profile.root_name(root.number()), words::unit(*unit), words::premium(*premium));
            Some(format!("away {time} {root} {unit} {premium} {contracts} {identity} {reports}"))
        }
        Event::Report(report) => Some(format!("back {time} {} {}", report.identity, report.contracts)),
        Event::Close(closing) => Some(format!("close {time} {}", closing.identity)),
        Event::Order { .. } | Event::Offer(_) | Event::Lockout { .. } => None,
    }
}
