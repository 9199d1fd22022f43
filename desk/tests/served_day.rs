//! The day on the served page is the desk's own, and undoing is a replay.
mod common;
use common::{event, profile, Dice};
use desk::answers::answer;
use desk::library::form::Form;
use desk::library::state::State;
use desk::serve::{Bench, Said};
use desk::session::sitting::Sitting;
use desk::typed::spoken::typed;
use mbrumzheg::Unit;

const PROFILE: &str = "ABCD,rate_vol,XYZ,500,1000\nABCD,abs_vol,QQQ,5\n";

/// The day on the page is the desk's: the same words and numbers, the same memory, and undoing is a replay of what is left.
#[test]
fn the_pages_day_is_the_desks_own() {
    for seed in 0..60 {
        let mut dice = Dice::new(seed);
        let text = profile(&mut dice);
        let mut plain = Sitting::new(State::armed(text.as_bytes()).expect("accepted"), "profile", text.as_bytes());
        let mut bench = Bench::default();
        bench.arm("profile", text.as_bytes()).expect("armed");
        let mut memories = vec![plain.state().memory().to_vec()];
        let mut lines = Vec::new();
        for _ in 0..40 {
            let next = event(&mut dice, plain.clock().ms(), plain.state().root_count());
            if next.root().is_some_and(|root| root.number() >= plain.state().root_count()) {
                continue;
            }
            let passed = plain.pass(next);
            let Ok(Said::Event(entry)) = bench.line(&typed(&plain.profile, &next)) else { panic!("an event") };
            assert_eq!(format!("{}  [{}]", entry.words, entry.numbers), answer::answer(&plain, &passed));
            memories.push(plain.state().memory().to_vec());
            lines.push(entry);
        }
        if lines.is_empty() {
            continue;
        }
        let last = lines.len();
        let saved = bench.save().expect("saved");
        for _ in 0..6 {
            let place = dice.below(last as u64 + 1) as usize;
            bench.go(place).expect("there is such a place");
            let sitting = bench.sitting.as_ref().expect("armed");
            assert_eq!(sitting.state().memory(), &memories[place][..], "seed {seed}, place {place}");
            assert_eq!((bench.log.as_slice(), bench.undone.len(), sitting.sources.typed), (&lines[..place], last - place, place));
            assert_eq!(bench.is_unsaved(), place > 0 && place < last);
        }
        bench.go(last).expect("forth again");
        assert_eq!(bench.save().expect("saved"), saved);
        bench.clear().expect("cleared");
        bench.bring_back().expect("brought back");
        assert_eq!(bench.sitting.as_ref().expect("armed").state().memory(), &memories[last][..]);
        // a file's records give the same day
        let mut again = Bench::default();
        again.arm("profile", text.as_bytes()).expect("armed");
        again.replay("day.records", &saved, Form::New).expect("replayed");
        assert_eq!((again.log, again.sitting.expect("armed").sources.replayed), (lines, vec!["day.records".to_string()]));
    }
}

/// Faulty records keep their places, also where they are undone and done again.
#[test]
fn faulty_records_keep_their_places() {
    let mut bench = Bench::default();
    bench.arm("profile", PROFILE.as_bytes()).expect("armed");
    let Ok(Said::Event(_)) = bench.line("offer 0ms XYZ call front 7.00 1") else { panic!("an event") };
    let bytes = bench.save().expect("saved");
    let day = [&bytes[..], &[0xFF; 16], &bytes[..], &[1, 2, 3]].concat();
    bench.clear().expect("cleared");
    bench.arm("profile", PROFILE.as_bytes()).expect("armed");
    bench.replay("day", &day, Form::New).expect("replayed");
    let refusals = |bench: &Bench| bench.log.iter().map(|entry| entry.numbers.clone()).collect::<Vec<_>>();
    let all = ["1 0 0 1 0 0", "2 16 0 0 0 0", "3 0 0 1 0 0", "4 16 0 0 0 0"];
    assert_eq!(refusals(&bench), all);
    assert_eq!(bench.save().expect("saved"), day);
    for place in [2, 4, 0, 4, 1, 3, 4] {
        bench.go(place).expect("there is such a place");
        assert_eq!(refusals(&bench), all[..place]);
    }
    assert_eq!(bench.save().expect("saved"), day);
}

/// A file whose records were undone and replaced is no source of the day.
#[test]
fn what_was_replaced_is_no_source() {
    let mut bench = Bench::default();
    bench.arm("profile", PROFILE.as_bytes()).expect("armed");
    bench.line("order 0ms XYZ").expect("an event");
    bench.replay("faulty", b"record ff\nrecord ff\n", Form::New).expect("replayed");
    let sources = |bench: &Bench| bench.sitting.as_ref().map(|sitting| (sitting.sources.replayed.clone(), sitting.sources.typed));
    assert_eq!(sources(&bench), Some((vec!["faulty".to_string()], 1)));
    bench.go(1).expect("undone");
    assert_eq!(sources(&bench), Some((vec![], 1)));
    bench.go(2).expect("done again");
    assert_eq!(sources(&bench), Some((vec!["faulty".to_string()], 1)));
    bench.go(1).expect("undone");
    bench.line("order 1ms XYZ").expect("an event");
    bench.line("order 2ms XYZ").expect("an event");
    bench.go(3).expect("here");
    assert_eq!(sources(&bench), Some((vec![], 3)));
}

/// A day in words that has a line which is no event changes nothing.
#[test]
fn a_bad_line_changes_nothing() {
    let mut bench = Bench::default();
    bench.arm("profile", PROFILE.as_bytes()).expect("armed");
    for line in ["order 0ms XYZ reset t", "order 1ms XYZ", "order 2ms XYZ"] {
        bench.line(line).expect("an event");
    }
    bench.go(2).expect("undone");
    let words = String::from_utf8(bench.save_words().expect("saved")).expect("text");
    let why = bench.replay("day.txt", format!("{words}lock +5ms firm\norder 9ms SPY\n").as_bytes(), Form::New).expect_err("a bad line");
    assert!(why.starts_with("day.txt is left alone, since line 5: the profile has no root 'SPY'"), "{why}");
    assert_eq!((bench.place(), bench.undone.len(), bench.is_unsaved()), (2, 1, false));
    // good lines go on where the clock stands, each at the clock that those before it leave
    bench.replay("day.txt", format!("{words}lock +5ms firm\norder +1ms XYZ reset e\n").as_bytes(), Form::New).expect("replayed");
    let asked: Vec<&str> = bench.log.iter().map(|entry| entry.asked.as_str()).collect();
    assert_eq!(asked[4..], ["lock 6ms firm", "order 7ms XYZ reset e"]);
    assert!(bench.undone.is_empty() && bench.is_unsaved());
}

/// The page gives the rules that the unit runs, and a unit that is armed with them is the same.
#[test]
fn the_pages_active_rules_arm_the_same_unit() {
    assert!(Bench::default().active().is_err(), "nothing is armed");
    for seed in 0..60 {
        let text = profile(&mut Dice::new(seed));
        let mut bench = Bench::default();
        bench.arm("profile", text.as_bytes()).expect("armed");
        let written = bench.active().expect("a sound state");
        assert_eq!(bench.line("profile"), Ok(Said::Words(written.trim_end().to_string())));
        let again = Unit::new().arm(&written).unwrap_or_else(|refused| panic!("{refused}\n{written}"));
        assert_eq!(again.memory(), Unit::new().arm(&text).expect("accepted").memory(), "{text}\n{written}");
        assert_eq!(again.profile().as_ref(), Ok(&written));
    }
}
