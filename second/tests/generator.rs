//! The generator: the same seed gives the same, and every refusal turns up.

use std::collections::BTreeSet;

use second::gen::{self, Call};
use second::profile;
use second::records;
use second::unit::Unit;

#[test]
fn same_seed_same_output() {
    for seed in 0..50 {
        let text = gen::profile(seed);
        assert_eq!(text, gen::profile(seed));
        assert_eq!(gen::events(seed, 200, 3), gen::events(seed, 200, 3));
        assert_eq!(gen::events_near(seed, 200, &text), gen::events_near(seed, 200, &text));
        assert_eq!(gen::records(seed, 200, &text), gen::records(seed, 200, &text));
        assert_eq!(gen::records16(seed, 200, &text), gen::records16(seed, 200, &text));
        assert_eq!(gen::day(seed, 200), gen::day(seed, 200));
        assert_ne!(gen::events(seed, 200, 3), gen::events(seed + 1, 200, 3));
    }
}

#[test]
fn valid_profiles_are_accepted() {
    for seed in 0..5_000 {
        let text = gen::valid_profile(seed);
        assert!(profile::read(&text).is_ok(), "seed {seed}: {:?}", profile::read(&text).err());
    }
}

#[test]
fn damaged_profiles_give_every_refusal() {
    let seen: BTreeSet<u64> =
        (0..5_000).map(|seed| profile::read(&gen::damaged_profile(seed)).err().map_or(0, |(refusal, _)| refusal)).collect();
    assert_eq!(seen, BTreeSet::from([0, 5, 6, 7, 8, 9, 10, 11]));
}

#[test]
fn events_give_every_refusal_and_verdict() {
    let mut refusals = BTreeSet::new();
    let mut verdicts = BTreeSet::new();
    for seed in 0..100 {
        let text = gen::valid_profile(seed);
        let mut unit = Unit::new();
        unit.arm(&text);
        for call in gen::events_near(seed, 3_000, &text) {
            let numbers = call.run(&mut unit);
            refusals.insert(numbers[0]);
            if let (Call::Offer { .. }, 0) = (call, numbers[0]) {
                verdicts.insert((numbers[1], numbers[2] > 0, numbers[3], numbers[4]));
            }
        }
    }
    assert!([0, 1, 3, 4, 6, 12, 13, 14, 15, 17, 18, 19].iter().all(|refusal| refusals.contains(refusal)), "{refusals:?}");
    let mut expected = BTreeSet::from([(1, false, 0, 0), (2, false, 0, 0), (0, true, 0, 0)]);
    for trips in [(1, 0), (0, 1), (1, 1)] {
        expected.extend([(0, false, trips.0, trips.1), (0, true, trips.0, trips.1)]);
    }
    assert_eq!(verdicts, expected);
}

#[test]
fn plain_events_run_too() {
    let mut refusals = BTreeSet::new();
    for seed in 0..100 {
        let mut unit = Unit::new();
        let roots = unit.arm(&gen::profile(seed)).roots;
        for call in gen::events(seed, 1_000, roots) {
            refusals.insert(call.run(&mut unit)[0]);
        }
    }
    assert!([0, 1, 3, 4, 12, 13, 14].iter().all(|refusal| refusals.contains(refusal)), "{refusals:?}");
}

#[test]
fn records_are_mostly_good() {
    let text = gen::valid_profile(1);
    let bytes = gen::records(1, 1_000, &text);
    let good = bytes.chunks(12).filter(|record| records::read(record).refusal == 0).count();
    assert!(good > 900 && good < 1_000);
}

#[test]
fn a_day_has_each_call_with_its_answer() {
    let text = gen::valid_profile(7);
    let mut unit = Unit::new();
    assert_eq!(unit.arm(&text).refusal, 0);
    let day = gen::day(7, 500);
    let mut lines = day.lines().filter(|line| !line.starts_with("stands"));
    assert_eq!(lines.next(), Some("day 7"));
    assert!(lines.next().is_some_and(|line| line.starts_with("arm ")));
    for call in gen::events_near(7, 500, &text) {
        let row: Vec<String> = call.run(&mut unit).iter().map(u64::to_string).collect();
        let line = lines.next().expect("a line a call");
        assert_eq!(line.split(" = ").nth(1), Some(row.join(" ").as_str()), "{line}");
    }
    assert_eq!(lines.next(), None);
}
