//! The proved library against the second program: days of calls from seeds, every single damaged bit, profiles, lengths.

use std::io::Write;

use native::pair::{as_it_is, Pair};
use native::profiles::clashing;
use native::run::{rate, report, run, End};
use native::scripts::{Kind, Step};
use native::SIZE;
use second::gen;
use second::place::*;

/// The first day's seed, and how many days the gate compares, which takes about a minute.
const SEED: u64 = 20_120_514;
const DAYS: u64 = 5_000;

#[test]
fn days_of_calls_show_no_difference() {
    let outcome = run(End::Days(DAYS), SEED, as_it_is);
    let compared = format!("compared from seed {SEED}: {}", rate(outcome.days, &outcome.tally, outcome.spent));
    // printed whether or not the test passes
    writeln!(std::io::stderr(), "{compared}").expect("a place for words");
    println!("{}", outcome.tally);
    if let Some(script) = outcome.script {
        panic!("a difference, to be run again by native/run replay:\n{}", report(&script, as_it_is));
    }
    assert_eq!(outcome.days, DAYS);
    assert!(outcome.tally.missing().is_empty(), "never came up: {:?}", outcome.tally.missing());
}

/// Runs a step on both, which must agree.
fn agree(pair: &mut Pair, step: Step) -> [u64; 5] {
    pair.step(&step).unwrap_or_else(|difference| panic!("after {step}: {difference}"))
}

/// Both armed, with five fills in the log and two orders sent away.
fn armed() -> Pair {
    let mut pair = Pair::new(as_it_is);
    let profile = b"ABCD,abs_vol,XYZ,1000\nABCD,rate_vol,QR,500,1000,,C,F\nABCD,rate_ntnl,,100000,60000,T\n";
    assert_eq!(agree(&mut pair, Step::arm(profile.to_vec())), [0, 0, 0x4142_4344, 3, 2]);
    for n in 0..5 {
        assert_eq!(agree(&mut pair, Step::new(Kind::Offer, &[10 * n, n % 2, 0, 70_000, 20]))[0], 0);
    }
    for identity in [5, 70] {
        assert_eq!(agree(&mut pair, Step::new(Kind::Send, &[50, 1, 2, 70_000, 20, identity, 9])), [0; 5]);
    }
    pair
}

#[test]
fn each_single_bit_of_a_state_is_judged_alike() {
    let mut pair = armed();
    let state = pair.second().numbers().to_vec();
    let mut refused = 0;
    for place in 0..SIZE as u64 {
        for bit in 0..64 {
            let number = state[place as usize];
            agree(&mut pair, Step::new(Kind::Damage, &[place, number ^ 1 << bit]));
            refused += u64::from(agree(&mut pair, Step::new(Kind::Status, &[]))[0] == 2);
            agree(&mut pair, Step::new(Kind::Order, &[u64::MAX, 0, 0]));
            agree(&mut pair, Step::new(Kind::Profile, &[200]));
            agree(&mut pair, Step::new(Kind::Damage, &[place, number]));
        }
    }
    assert_eq!(agree(&mut pair, Step::new(Kind::Status, &[])), [0, 0, 0, 0, 64]);
    assert!((155_000..64 * SIZE as u64).contains(&refused), "{refused} of the single damaged bits are refused");
}

#[test]
fn profiles_are_read_alike() {
    let mut pair = Pair::new(as_it_is);
    let mut random = gen::Random::new(1);
    let mut seen = [0; 12];
    for seed in 0..80_000 {
        let profile = match seed % 8 {
            0 => gen::profile(seed),
            1 => gen::damaged_profile(seed),
            _ => clashing(&mut random),
        };
        seen[agree(&mut pair, Step::arm(profile))[0] as usize] += 1;
        agree(&mut pair, Step::new(Kind::Clear, &[]));
    }
    println!("{seen:?}");
    assert!([0, 6, 7, 8, 9, 10, 11].iter().all(|refusal| seen[*refusal] > 1_000) && seen[5] > 50, "{seen:?}");
}

#[test]
fn any_length_and_any_filling_is_answered() {
    let profile = || Step::arm(b"A,abs_vol,Q,5".to_vec());
    let starts_of_parts = [MARK, CLOCK, ROOT_COUNT, ROOTS, RULE_COUNT, RULES, TOTALS, FIRM_TRIPPED, REGISTER, ENTRY_COUNT, LOG];
    for length in starts_of_parts.into_iter().chain([SIZE - 1, SIZE, SIZE + 1, 70_000]).map(|length| length as u64) {
        let mut pair = armed();
        agree(&mut pair, Step::new(Kind::Length, &[length]));
        let refusal = u64::from(length < SIZE as u64);
        let arming = if refusal == 1 { 1 } else { 3 };
        assert_eq!(agree(&mut pair, Step::new(Kind::Status, &[]))[0], refusal);
        assert_eq!(agree(&mut pair, profile())[0], arming);
        assert_eq!(agree(&mut pair, Step::new(Kind::Profile, &[200]))[0], refusal);
        for place in 0..length {
            agree(&mut pair, Step::new(Kind::Damage, &[place, u64::MAX]));
        }
        if length > 0 {
            assert_eq!(agree(&mut pair, Step::new(Kind::Status, &[]))[0], if refusal == 1 { 1 } else { 2 });
            agree(&mut pair, Step::new(Kind::Damage, &[MARK as u64, 0]));
        }
        assert_eq!(agree(&mut pair, profile())[0], refusal);
        assert_eq!(agree(&mut pair, Step::new(Kind::Clear, &[]))[0], refusal);
    }
}
