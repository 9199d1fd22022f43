//! Whole days from their calls and answers alone: offers keep every limit, what remains is the rest of what was filled, verdicts follow from
//! trips, lockouts and resets, and 15 from the places that are used.

mod common;

use common::history::{begun, calls, units, History};
use second::gen::{self, Call};
use second::unit::{Unit, LOG_PLACES, MOST_TOTAL};

/// The answers of a call after its refusal, with zeros where there are fewer than four; none if it was refused.
fn answers(call: Call, unit: &mut Unit) -> Option<[u64; 4]> {
    let row = call.run(unit);
    (row[0] == 0).then(|| std::array::from_fn(|place| row.get(place + 1).copied().unwrap_or(0)))
}

/// Offers alone keep every limit, and what remains is the rest of all that came.
fn check_rules(history: &History, unit: &Unit, time: u64) {
    for (place, rule) in (0..).zip(&history.rules) {
        for of_rule in units(rule) {
            let offered = history.counted(rule, of_rule, time, |fill| !fill.is_report);
            assert!(offered <= rule.limit, "rule {place}");
            let all = history.counted(rule, of_rule, time, |_| true).min(MOST_TOTAL);
            assert_eq!(unit.remaining(time, place, of_rule).numbers(), [0, rule.limit.saturating_sub(all)], "rule {place}");
        }
    }
}

/// All that the rules of a granted offer count, reports included, is within their limits.
fn check_granted(history: &History, time: u64, root: u64, unit: u64) {
    for rule in history.rules.iter().filter(|rule| rule.covers(root, unit)) {
        let of_rule = if rule.is_firm() { 0 } else { unit };
        assert!(history.counted(rule, of_rule, time, |_| true) <= rule.limit);
    }
}

#[test]
fn offers_keep_every_limit_and_remaining_is_the_rest() {
    for seed in 0..60 {
        let text = gen::valid_profile(seed);
        let (mut unit, mut history) = begun(&text);
        for call in calls(seed, &text) {
            let Some(answers) = answers(call, &mut unit) else { continue };
            history.take(call, answers);
            match (call, answers[1]) {
                (Call::Offer { time, root, unit: of_unit, .. }, 1..) => {
                    check_rules(&history, &unit, time);
                    check_granted(&history, time, root, of_unit);
                }
                (Call::Report { time, .. }, _) => check_rules(&history, &unit, time),
                _ => {}
            }
        }
    }
}

#[test]
fn verdicts_follow_from_trips_lockouts_and_resets() {
    for seed in 0..200 {
        let text = gen::valid_profile(seed);
        let (mut unit, mut history) = begun(&text);
        for call in calls(seed, &text) {
            let Some(answers) = answers(call, &mut unit) else { continue };
            let before = match call {
                Call::Offer { root, .. } => Some(history.verdict(root)),
                Call::Send { order, .. } => Some(history.verdict(order.root)),
                Call::Lockout { .. } | Call::Report { .. } | Call::Close { .. } => Some(0),
                _ => None,
            };
            history.take(call, answers);
            let after = if let Call::Order { root, .. } = call { Some(history.verdict(root)) } else { None };
            assert!([before, after].into_iter().flatten().all(|verdict| verdict == answers[0]), "seed {seed}, {call:?}");
        }
    }
}

#[test]
fn the_register_and_15_follow_from_what_was_sent() {
    let mut full = [0, 0];
    for seed in 0..100 {
        let text = gen::valid_profile(seed);
        let (mut unit, mut history) = begun(&text);
        for call in calls(seed, &text) {
            let row = call.run(&mut unit);
            let places = match call {
                Call::Send { time, order } => Some((time, order.reports)).filter(|_| row[..2] == [0, 0] || row[0] == 15),
                Call::Offer { time, .. } => Some((time, 1)).filter(|_| row[0] == 0 && row[2] > 0 || row[0] == 15),
                _ => None,
            };
            if let Some((time, places)) = places {
                let passes = history.has_rate_rule() && history.places_used(time) + places > LOG_PLACES as u64;
                assert_eq!(row[0] == 15, passes, "seed {seed}, {call:?}");
                full[usize::from(matches!(call, Call::Send { .. }))] += u64::from(passes);
            }
            if row[0] == 0 {
                history.take(call, std::array::from_fn(|place| row.get(place + 1).copied().unwrap_or(0)));
            }
            assert_eq!(unit.armed.as_ref().unwrap().away, history.sent, "seed {seed}, {call:?}");
        }
    }
    assert!(full.iter().all(|times| *times > 10), "{full:?}");
}
