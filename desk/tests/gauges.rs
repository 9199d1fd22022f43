//! The page has a gauge for each rule and unit that is counted for itself, by the library's own numbers.
mod common;
#[allow(dead_code)]
#[path = "browser/json.rs"]
mod json;
use common::{event, profile, Dice};
use desk::serve::{state, Bench};
use desk::typed::spoken;
use json::Json;
use mbrumzheg::Time;

/// The gauges that the page draws, at a time if one is given.
fn gauges(bench: &Bench, at: &str) -> Vec<Json> {
    Json::of(&state(bench, at).expect("a state")).get("armed").get("rules").list().to_vec()
}

#[test]
fn a_gauge_shows_what_the_library_answers_for_its_rule_and_unit() {
    let (mut tripped, mut past) = (0, 0);
    for seed in 0..80 {
        let mut dice = Dice::new(seed);
        let text = profile(&mut dice);
        let mut bench = Bench::default();
        bench.arm("profile", text.as_bytes()).expect("armed");
        for _ in 0..40 {
            let sitting = bench.sitting.as_ref().expect("armed");
            let next = event(&mut dice, sitting.clock().ms(), sitting.state().root_count());
            if next.root().is_some_and(|root| root.number() >= sitting.state().root_count()) {
                continue;
            }
            let typed = spoken::typed(&sitting.profile, &next);
            bench.line(&typed).expect("an event");
        }
        let sitting = bench.sitting.as_ref().expect("armed");
        let clock = sitting.clock();
        for (at, time) in [("", clock), ("+250ms", Time::from_ms(clock.ms() + 250).expect("a time"))] {
            let drawn = gauges(&bench, at);
            assert_eq!(drawn.len(), sitting.profile.counts.len());
            for ((rule, count), gauge) in sitting.profile.each_count().zip(&drawn) {
                let left = sitting.remaining(time, rule.number as u64, count.asked_unit()).expect("a rule and its unit");
                assert_eq!((gauge.get("number").number(), gauge.get("remaining").number()), (rule.number as i64, left as i64));
                assert_eq!(gauge.get("of").text(), sitting.profile.scope_words(count.of));
                let used = sitting.reckoned(time, count);
                let words = |amount: u64| if amount == 0 { Json::Null } else { Json::Text(rule.amount(amount).to_string()) };
                assert_eq!((gauge.get("back"), gauge.get("past")), (&words(used.away), &words(used.all.saturating_sub(rule.limit))));
                assert_eq!(gauge.get("used").text(), rule.amount(used.all).to_string());
                past += usize::from(gauge.get("past") != &Json::Null);
                assert_eq!(gauge.get("tripped") != &Json::Null, sitting.standing.tripped(count.place).is_some());
                tripped += usize::from(gauge.get("tripped") != &Json::Null);
            }
        }
    }
    assert!(tripped > 20 && past > 20, "{tripped} gauges were of what had tripped, {past} of what was past its limit");
}

#[test]
fn a_trip_on_one_unit_is_shown_on_its_gauge_alone_and_locks_the_root() {
    let mut bench = Bench::default();
    bench.arm("profile", b"ABCD,abs_vol,XYZ,100").expect("armed");
    for line in ["offer 0ms XYZ call front 1.00 60", "offer 0ms XYZ put trailing 1.00 60", "offer 5ms XYZ put trailing 1.00 60"] {
        bench.line(line).expect("an event");
    }
    let seen: Vec<(String, i64, Json)> = gauges(&bench, "")
        .iter()
        .map(|gauge| (gauge.get("of").text().to_string(), gauge.get("remaining").number(), gauge.get("tripped").clone()))
        .collect();
    let trip = Json::Text("5ms".to_string());
    let wanted = [
        ("XYZ call front", 40, Json::Null),
        ("XYZ call trailing", 100, Json::Null),
        ("XYZ put front", 100, Json::Null),
        ("XYZ put trailing", 0, trip),
    ];
    assert_eq!(seen, wanted.map(|(of, left, tripped)| (of.to_string(), left, tripped)));
    let levels = Json::of(&state(&bench, "").expect("a state")).get("armed").get("levels").list().to_vec();
    assert_eq!(levels[1].get("cause").text(), "rule 0 abs_vol 100 of XYZ put trailing tripped");
}
