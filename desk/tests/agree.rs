//! What the desk works out by itself agrees with what the library answers, on random profiles and days.
mod common;
#[path = "common/days.rs"]
mod days;
use common::{event, profile, Dice};
use days::{day, sitting};
use desk::answers::answer;
use desk::profile::{Count, Profile, Rule, Scope};
use desk::records::source::Source;
use desk::replay::scale::Curve;
use desk::session::ledger::Used;
use desk::session::sitting::Sitting;
use desk::typed::command;
use desk::typed::names::Names;
use desk::typed::spoken::typed;
use mbrumzheg::{Event, Offer, Refusal, Reset, Time, UnitOfRoot, Verdict};

#[test]
fn the_reading_of_an_accepted_profile_is_the_librarys() {
    for seed in 0..2_000 {
        let text = profile(&mut Dice::new(seed));
        let sitting = sitting(&text);
        assert_eq!(sitting.state().firm().as_str(), sitting.profile.firm);
        assert_eq!(sitting.state().rule_count(), sitting.profile.rules.len() as u64);
        let names: Vec<String> = sitting.state().roots().map(|(_, name)| name.to_string()).collect();
        assert_eq!(names, sitting.profile.roots, "{text}");
        for (rule, count) in sitting.profile.each_count() {
            assert_eq!(sitting.left(Time::START, count), Ok(rule.limit), "{text}");
        }
        // the library has just the counts that the desk knows, and refuses every other rule and unit
        let rules = sitting.profile.rules.len() as u64;
        let known: Vec<(u64, UnitOfRoot)> = sitting.profile.counts.iter().map(|count| (count.rule as u64, count.asked_unit())).collect();
        for (rule, unit) in (0..=rules).flat_map(|rule| UnitOfRoot::ALL.map(|unit| (rule, unit))) {
            let wanted = if known.contains(&(rule, unit)) { None } else { Some(Refusal::Unknown) };
            assert_eq!(sitting.remaining(Time::START, rule, unit).err(), wanted, "rule {rule}, {unit}\n{text}");
        }
    }
}

#[test]
fn the_rules_that_cut_are_those_that_the_grant_shows() {
    let (mut cuts, mut reached) = (0, 0);
    for seed in 0..400 {
        let mut dice = Dice::new(seed);
        let mut sitting = sitting(&profile(&mut dice));
        for _ in 0..60 {
            let next = event(&mut dice, sitting.clock().ms(), sitting.state().root_count());
            let Event::Offer(offer) = next else {
                sitting.pass(next);
                assert_eq!(sitting.differences(), [], "what the desk reckons is what the library answers");
                continue;
            };
            let least = sitting.least_allowance(&offer);
            let passed = sitting.pass(next);
            assert_eq!(sitting.differences(), [], "what the desk reckons is what the library answers");
            let Ok(answer) = passed.answer else { continue };
            if answer.verdict != Verdict::Free {
                assert!(passed.cut_by.is_empty() && passed.reached.is_empty());
                continue;
            }
            assert_eq!(answer.grant, least);
            assert_eq!(passed.is_cut(), !passed.cut_by.is_empty());
            let tripped: Vec<usize> = passed.cut_by.iter().chain(&passed.reached).copied().collect();
            let of_firm = |place: &usize| sitting.profile.counts[*place].of == Scope::Firm;
            assert_eq!(answer.firm_trip, tripped.iter().any(of_firm));
            assert_eq!(answer.root_trip, tripped.iter().any(|place| !of_firm(place)));
            assert!(tripped.iter().all(|place| sitting.profile.counts[*place].of.covers(&offer)), "a trip names the offer's own unit");
            assert_eq!(passed.covered, sitting.profile.covering(&offer).next().is_some());
            cuts += passed.cut_by.len();
            reached += passed.reached.len();
        }
    }
    assert!(cuts > 500 && reached > 100, "the days have {cuts} cuts and {reached} limits reached");
}

#[test]
fn a_replayed_day_has_the_same_answers() {
    for seed in 0..100 {
        let mut dice = Dice::new(seed);
        let text = profile(&mut dice);
        let (mut first, mut second) = (sitting(&text), sitting(&text));
        let mut lines = Vec::new();
        for _ in 0..60 {
            let next = event(&mut dice, first.clock().ms(), first.state().root_count());
            let passed = first.pass(next);
            lines.push(answer::replayed(&first, &passed));
        }
        let mut pieces = first.day.pieces().expect("a reader");
        let mut again = Vec::new();
        while let Some(piece) = pieces.next(Time::START).expect("read") {
            let passed = second.pass_piece(&piece);
            again.push(answer::replayed(&second, &passed));
        }
        assert_eq!(lines, again);
        assert_eq!(first.state().memory(), second.state().memory());
    }
}

#[test]
fn an_event_typed_as_it_is_shown_is_the_same_event() {
    let mut dice = Dice::new(9);
    let profile = Profile::of_accepted(b"ABCD,abs_vol,XYZ,1000\nABCD,abs_vol,7,5\nABCD,abs_vol,NOW,5\nABCD,abs_vol,FIRM,5");
    for _ in 0..5_000 {
        let clock = dice.pick(&[0, 9_990, 60_000, 34_200_000, 86_399_000]);
        let asked = event(&mut dice, clock, 4);
        if asked.root().is_some_and(|root| root.number() > 3) {
            continue;
        }
        let shown = typed(&profile, &asked);
        let names = Names { profile: &profile, clock: Time::START };
        let typed = names.event(&command::read(&shown).expect("a command")).expect("an event");
        assert_eq!(typed, Ok(asked), "{shown}");
    }
}

/// A fill that was granted or came back from away, and whether each level still counts it.
struct Fill {
    offer: Offer,
    granted: u64,
    is_away: bool,
    counts: [bool; 2],
}

/// What a count has used at a time, by the scope paper's words and from the grants alone.
fn used(rule: &Rule, count: &Count, fills: &[Fill], ms: u64) -> Used {
    let level = usize::from(rule.scope == Scope::Firm);
    let inside = |fill: &&Fill| rule.window.is_none_or(|window| fill.offer.time.ms() + window > ms);
    let covered = |fill: &&Fill| rule.scope.covers(&fill.offer) && count.unit().is_none_or(|unit| unit == fill.offer.unit);
    let counted = fills.iter().filter(|fill| fill.counts[level]).filter(covered).filter(inside);
    counted.fold(Used::default(), |used, fill| {
        let amount = rule.adds(&fill.offer, fill.granted);
        Used { all: used.all + amount, away: used.away + u64::from(fill.is_away) * amount }
    })
}

#[test]
fn the_page_draws_the_use_that_the_grants_make() {
    let mut came_back = 0;
    for seed in 0..150 {
        let mut dice = Dice::new(seed);
        let text = profile(&mut dice);
        let mut sitting = sitting(&text);
        let mut fills: Vec<Fill> = Vec::new();
        let all_used = |sitting: &Sitting, fills: &[Fill], ms: u64| -> Vec<Used> {
            sitting.profile.each_count().map(|(rule, count)| used(rule, count, fills, ms)).collect()
        };
        // what each count had used just after each moment of the day
        let mut seen: Vec<(u64, Vec<Used>)> = Vec::new();
        for _ in 0..50 {
            let before = sitting.clock().ms();
            let next = event(&mut dice, before, sitting.state().root_count());
            let passed = sitting.pass(next);
            let Ok(answer) = passed.answer else { continue };
            let now = next.time().ms();
            for ms in [before + 1, (before + now) / 2, now.saturating_sub(1)] {
                if before < ms && ms < now {
                    seen.push((ms, all_used(&sitting, &fills, ms)));
                }
            }
            match next {
                Event::Offer(offer) if answer.grant > 0 => {
                    fills.push(Fill { offer, granted: answer.grant, is_away: false, counts: [true; 2] })
                }
                Event::Report(report) => {
                    let offer = passed.away.expect("an order").fill(&report);
                    came_back += 1;
                    fills.push(Fill { offer, granted: answer.grant, is_away: true, counts: [true; 2] });
                }
                Event::Order { root, reset, .. } => forget(&mut fills, root.number(), reset),
                _ => {}
            }
            seen.retain(|(ms, _)| *ms != now);
            seen.push((now, all_used(&sitting, &fills, now)));
        }
        // a stretch short enough has a bucket for each millisecond, so what is drawn there is exact
        let last = sitting.clock().ms();
        for from in (0..=last).step_by(2_048) {
            let part = day(&sitting, Some((from, from + 2_047)));
            assert_eq!(part.curves.scale.map(|scale| scale.width), Some(1));
            for (ms, wanted) in seen.iter().filter(|(ms, _)| from <= *ms && *ms < from + 2_048) {
                let last = |curve: &Curve| curve.in_bucket(ms - from).2;
                let both = part.curves.counts.iter().zip(&part.curves.away);
                let drawn: Vec<Used> = both.map(|(all, away)| Used { all: last(all), away: last(away) }).collect();
                assert_eq!(&drawn, wanted, "seed {seed} at {ms} ms\n{text}");
            }
        }
        // the whole day has every amount within the range of its bucket, and reaches the same peaks
        let whole = day(&sitting, None);
        let Some(scale) = whole.curves.scale else { continue };
        for (ms, wanted) in &seen {
            for (curve, used) in whole.curves.counts.iter().zip(wanted) {
                let (least, most, _) = curve.in_bucket(scale.bucket(*ms));
                assert!(least <= used.all && used.all <= most, "seed {seed} at {ms} ms: {used:?} is not from {least} to {most}");
                assert!(curve.peak.1 >= used.all);
            }
        }
        let times = seen.iter().map(|(ms, _)| *ms);
        assert_eq!(whole.times.map(|(_, last)| last), times.max());
    }
    assert!(came_back > 100, "{came_back} fills came back from away");
}

/// What a reset takes from the counts.
fn forget(fills: &mut [Fill], root: u64, reset: Reset) {
    for fill in fills {
        if matches!(reset, Reset::Symbol | Reset::Both) && fill.offer.root.number() == root {
            fill.counts[0] = false;
        }
        if matches!(reset, Reset::Firm | Reset::Both) {
            fill.counts[1] = false;
        }
    }
}
