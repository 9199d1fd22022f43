//! The generator of 16-byte records: every kind and refusal turns up, and stamps go back within a millisecond.

use std::collections::BTreeSet;

use second::event::Event;
use second::gen::{self, Random};
use second::program;
use second::records::{read as read12, LOCKOUT};
use second::records16::{read, write, BYTES, MILLISECOND};
use second::unit::Unit;

#[test]
fn records_of_a_day_give_every_refusal_and_kind() {
    let mut refusals = BTreeSet::new();
    let mut accepted = BTreeSet::new();
    for seed in 0..100 {
        let text = gen::valid_profile(seed);
        let mut unit = Unit::new();
        unit.arm(&text);
        for bytes in gen::records16(seed, 3_000, &text).chunks(BYTES) {
            let refusal = match program::event(bytes) {
                Ok(event) => event.run(&mut unit).refusal,
                Err(refusal) => refusal,
            };
            refusals.insert(refusal);
            if refusal == 0 {
                let record = read(bytes).record;
                accepted.insert((record.kind, record.reset, record.level));
            }
        }
    }
    assert_eq!(refusals, BTreeSet::from([0, 12, 13, 15, 16, 17, 18, 19]), "14 is the reader's 16");
    let orders = (0..=6).map(|reset| (0, reset, 0));
    assert_eq!(accepted, orders.chain([(1, 0, 0), (2, 0, 0), (2, 0, 1), (3, 0, 0), (4, 0, 0), (5, 0, 0)]).collect());
}

#[test]
fn records_of_a_day_are_mostly_taken() {
    for seed in [1, 2, 3] {
        let text = gen::valid_profile(seed);
        let mut unit = Unit::new();
        unit.arm(&text);
        let bytes = gen::records16(seed, 2_000, &text);
        let taken = |bytes: &&[u8]| program::event(bytes).is_ok_and(|event: Event| event.run(&mut unit).refusal == 0);
        let taken = bytes.chunks(BYTES).filter(taken).count();
        assert!((1_600..2_000).contains(&taken), "seed {seed}: {taken}");
    }
}

#[test]
fn stamps_go_back_within_a_millisecond() {
    let mut back = 0;
    for seed in 0..20 {
        let bytes = gen::records16(seed, 1_000, &gen::valid_profile(seed));
        let times: Vec<u64> = bytes.chunks(BYTES).map(read).filter(|answer| answer.refusal == 0).map(|answer| answer.record.time).collect();
        let goes_back = |pair: &&[u64]| pair[1] < pair[0] && pair[1] / MILLISECOND == pair[0] / MILLISECOND;
        back += times.windows(2).filter(goes_back).count();
    }
    assert!(back > 500, "{back}");
}

#[test]
fn the_last_record_is_short_at_times() {
    let lengths: BTreeSet<usize> = (0..200).map(|seed| gen::records16(seed, 3, b"A,abs_vol,X,5").len()).collect();
    assert_eq!(lengths, (33..=48).collect());
}

#[test]
fn single_records_are_good_odd_and_damaged() {
    let mut random = Random::new(3);
    let mut good = BTreeSet::new();
    let (mut odd_refused, mut old_refused) = (0, 0);
    for _ in 0..20_000 {
        let record = gen::record16(&mut random);
        assert_eq!(write(&record, &mut [0; BYTES]).refusal, 0, "{record:?}");
        good.insert((record.kind, record.level));
        odd_refused += u64::from(write(&gen::odd16(&mut random), &mut [0; BYTES]).refusal == 16);
        old_refused += u64::from(read12(&gen::bytes12(&mut random)).refusal == 16);
    }
    assert_eq!(good, BTreeSet::from([(0, 0), (1, 0), (LOCKOUT, 0), (LOCKOUT, 1), (3, 0), (4, 0), (5, 0)]));
    assert!((10_000..20_000).contains(&odd_refused), "{odd_refused}");
    assert!((4_000..16_000).contains(&old_refused), "{old_refused}");
}
