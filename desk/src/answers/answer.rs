//! Answers in words, with the scope paper's numbers in brackets after them.

use crate::answers::away;
use crate::answers::locked::rejected;
use crate::profile::Profile;
use crate::session::passed::Passed;
use crate::session::resets;
use crate::session::sitting::Sitting;
use crate::typed::spoken::typed;
use crate::words::{self, at_premium, grouped};
use mbrumzheg::{Answer, Event, Level, Offer, Refusal, Reset, Root, Verdict};

/// The answer to an event that was typed, in words and numbers; a refusal says what to type.
pub fn answer(sitting: &Sitting, passed: &Passed) -> String {
    let advice = match &passed.answer {
        Err(refusal) => format!("{}{}", asked_for(passed), advice(sitting, passed, *refusal)),
        Ok(_) => String::new(),
    };
    format!("{}{advice}  [{}]", sentence(sitting, passed), passed.numbers())
}

/// The answer to an event that was replayed, after the words that would type it.
pub fn replayed(sitting: &Sitting, passed: &Passed) -> String {
    let typed = passed.event.map_or_else(|| "faulty record".to_string(), |event| typed(&sitting.profile, &event));
    let words = match &passed.answer {
        Err(refusal) => format!("refused with {}, {}", refusal.number(), refusal.name()),
        Ok(_) => sentence(sitting, passed),
    };
    format!("{typed}: {words}  [{}]", passed.numbers())
}

/// The answer in words.
pub fn sentence(sitting: &Sitting, passed: &Passed) -> String {
    match (&passed.event, &passed.answer) {
        (Some(Event::Offer(offer)), Ok(answer)) if answer.verdict.passes() => filled(&sitting.profile, offer, answer, passed),
        (Some(Event::Offer(offer)), Ok(answer)) => {
            format!("{}, granted 0 of {}", rejected(sitting, answer.verdict, offer.root), at_premium(offer.contracts, offer.premium))
        }
        (Some(Event::Order { root, reset, .. }), Ok(answer)) => ordered(sitting, *root, *reset, answer.verdict),
        (Some(Event::Lockout { level, .. }), Ok(_)) => match level {
            Level::Root(root) => format!("root {} locked by hand", sitting.profile.root_name(root.number())),
            Level::Firm => format!("firm {} locked by hand", sitting.profile.firm),
        },
        (Some(Event::Send(_) | Event::Close(_)), Ok(_)) => away::sentence(sitting, passed),
        (Some(Event::Report(_)), Ok(answer)) => {
            let root = passed.away.map(|order| order.sent.root);
            format!("{}{}{}", away::sentence(sitting, passed), limits(&sitting.profile, passed), trips(&sitting.profile, root, answer))
        }
        (_, Err(refusal)) => refusal.to_string(),
        (None, Ok(_)) => String::new(),
    }
}

fn filled(profile: &Profile, offer: &Offer, answer: &Answer, passed: &Passed) -> String {
    let offered = at_premium(offer.contracts, offer.premium);
    let text = if answer.cuts(offer.contracts) {
        let granted = format!("granted {} of {offered}", grouped(answer.grant));
        format!("{granted}, cut by {}", counts(profile, &passed.cut_by))
    } else if passed.covered {
        format!("granted all {offered}")
    } else {
        format!("granted all {offered}, no rule covers it")
    };
    format!("{text}{}{}", limits(profile, passed), trips(profile, Some(offer.root), answer))
}

/// The limits that were reached, and those that what came back went past.
fn limits(profile: &Profile, passed: &Passed) -> String {
    let reached: Vec<usize> = passed.reached.iter().filter(|count| !passed.cut_by.contains(count)).copied().collect();
    let mut text = if reached.is_empty() { String::new() } else { format!("; limit reached: {}", counts(profile, &reached)) };
    let beyond = |(place, past): &(usize, u64)| {
        let amount = profile.count(*place).map(|(rule, _)| rule.amount(*past).to_string()).unwrap_or_default();
        format!("{} by {amount}", profile.count_words(*place))
    };
    if !passed.past.is_empty() {
        text.push_str(&format!("; past the limit: {}", passed.past.iter().map(beyond).collect::<Vec<_>>().join(" and ")));
    }
    text
}

/// The levels that tripped.
fn trips(profile: &Profile, root: Option<Root>, answer: &Answer) -> String {
    let root = root.filter(|_| answer.root_trip).map(|root| format!("; root {} tripped", profile.root_name(root.number())));
    let firm = answer.firm_trip.then(|| format!("; firm {} tripped", profile.firm));
    root.into_iter().chain(firm).collect()
}

/// Rules by their words, each with the unit that it counts, joined by "and".
pub fn counts(profile: &Profile, places: &[usize]) -> String {
    let each: Vec<String> = places.iter().map(|place| profile.count_words(*place)).collect();
    each.join(" and ")
}

fn ordered(sitting: &Sitting, root: Root, reset: Reset, verdict: Verdict) -> String {
    let name = sitting.profile.root_name(root.number());
    let done = resets::done(reset, &format!("root {name}"), &format!("firm {}", sitting.profile.firm));
    match verdict {
        Verdict::Free => format!("{done}the order on {name} may pass"),
        _ => format!("{done}{}", rejected(sitting, verdict, root)),
    }
}

/// The contracts and premium of an offer or a sending that was refused, as they were understood.
fn asked_for(passed: &Passed) -> String {
    match &passed.event {
        Some(Event::Offer(offer)) => format!("; asked for: {}", at_premium(offer.contracts, offer.premium)),
        Some(Event::Send(sending)) => format!("; asked for: {}", at_premium(sending.contracts, sending.premium)),
        _ => String::new(),
    }
}

/// What to type after a refusal.
fn advice(sitting: &Sitting, passed: &Passed, refusal: Refusal) -> String {
    match (refusal, &passed.event) {
        (Refusal::BadTime, _) => format!("; type {} or a later time", words::time(sitting.clock())),
        (_, Some(event)) => away::advice(&sitting.away, event, refusal),
        (_, None) => String::new(),
    }
}
