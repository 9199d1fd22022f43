//! Profiles out again: what the library writes arms cleared memory to the same numbers, and is written again as the same bytes.

use native::calls::run_library;
use native::pair::{as_it_is, Pair};
use native::profiles::clashing;
use native::scripts::{Kind, Step};
use native::steps::Day;
use native::{arm, clear, profile, SIZE};
use second::gen::{self, Call, Random};
use second::place::*;

/// The text that the library writes, of an armed and sound state that it leaves as it was.
fn text_of(m: &[u64]) -> Vec<u8> {
    let before = m.to_vec();
    let [refusal, size, rest @ ..] = profile(m, &mut []);
    assert_eq!((refusal, rest), (1, [0; 3]));
    let mut room = vec![7; size as usize];
    assert_eq!(profile(m, &mut room), [0, size, 0, 0, 0]);
    assert_eq!(m, before);
    room
}

/// The memory that a text arms, if it is accepted.
fn armed(text: &[u8]) -> Option<Vec<u64>> {
    let mut m = vec![0; SIZE];
    (arm(&mut m, text)[0] == 0).then_some(m)
}

/// Runs the orders, offers and lockouts of a day near the limits of a text.
fn run_events(m: &mut [u64], seed: u64, text: &[u8]) {
    for call in gen::events_near(seed, 200, text) {
        let step = match call {
            Call::Order { time, root, reset } => Step::new(Kind::Order, &[time, root, reset]),
            Call::Lockout { time, level, root } => Step::new(Kind::Lockout, &[time, level, root]),
            Call::Offer { time, root, unit, premium, contracts } => Step::new(Kind::Offer, &[time, root, unit, premium, contracts]),
            _ => continue,
        };
        run_library(&step, m, &mut [], &mut []);
    }
}

#[test]
fn what_is_written_arms_to_the_same_numbers_and_is_written_again() {
    let (mut random, mut accepted, mut shorter) = (Random::new(11), 0, 0);
    for seed in 0..6_000 {
        let text = match seed % 3 {
            0 => gen::valid_profile(seed),
            1 => gen::profile(seed),
            _ => clashing(&mut random),
        };
        let Some(fresh) = armed(&text) else { continue };
        let mut m = fresh.clone();
        run_events(&mut m, seed, &text);
        let written = text_of(&m);
        assert_eq!(clear(&mut m)[0], 0);
        assert_eq!(arm(&mut m, &written)[0], 0, "{}", written.escape_ascii());
        assert!(m == fresh, "{} and {}", text.escape_ascii(), written.escape_ascii());
        assert!(text_of(&m) == written, "{}", written.escape_ascii());
        assert!(written.ends_with(b"\n") && !written.windows(2).any(|pair| pair == b",\n"), "{}", written.escape_ascii());
        accepted += 1;
        shorter += u64::from(written.len() < text.len());
    }
    assert!(accepted > 3_000 && shorter > 500, "{accepted} accepted, {shorter} written shorter");
}

#[test]
fn rules_and_roots_of_any_sound_state_are_armed_again() {
    let (mut days, mut damaged) = (0, 0);
    for seed in 0..150 {
        let (mut day, mut pair, mut from_outside) = (Day::new(seed), Pair::new(as_it_is), false);
        while let Some(step) = day.next(&mut pair) {
            pair.step(&step).unwrap_or_else(|difference| panic!("{step}: {difference}"));
            from_outside = match step.kind {
                Kind::Damage => true,
                Kind::Arm | Kind::Clear => false,
                _ => from_outside,
            };
            if step.kind != Kind::Status || pair.second().is_unsound() || pair.second().unit().armed.is_none() {
                continue;
            }
            let state = &pair.second().numbers()[..SIZE];
            let again = armed(&text_of(state)).expect("what is written is accepted");
            assert_eq!(again[FIRM..TOTALS], state[FIRM..TOTALS]);
            days += 1;
            damaged += u64::from(from_outside);
        }
    }
    assert!(days > 1_000 && damaged > 300, "{days} states, {damaged} of them after damage");
}
