//! The hand-written calls keep the contract that they are measured under: they answer as the proved library and leave the same memory.

use native::beside::{days, no_slip, Slip};
use native::profiles::clashing;
use native::scripts::Kind;
use native::{arm, hand, offer, order, profile, report, send, status, SIZE};
use second::account::{CUTS, FILLS, FIRM_ROW};
use second::gen::{self, Random};
use second::place::{CLOCK, ROOTS_TRIPPED, TOTALS};

#[test]
fn days_of_calls_are_answered_alike_by_hand() {
    let tally = days(DAYS, SEED, no_slip).unwrap_or_else(|difference| panic!("{difference}"));
    println!("{} calls\n{tally}", tally.calls);
    assert!(tally.calls >= CALLS, "only {} calls", tally.calls);
    assert!(tally.missing().is_empty(), "never came up: {:?}", tally.missing());
}

/// Enough days that each refusal, trip, cut, reset, full log, window's end and damaged state comes up.
const DAYS: u64 = 250;
const SEED: u64 = 7;
const CALLS: u64 = 200_000;

#[test]
fn slips_are_found() {
    let slips: [Slip; 11] = [
        |_, left| left.row[2] -= u64::from(left.row[2] > 1_000),
        |step, left| {
            if left.row[0] == 0 && step.numbers[2] == 1 && left.numbers.len() >= SIZE {
                left.numbers[SIZE - 1] |= 1
            }
        },
        |_, left| {
            if left.row[0] == 15 {
                left.numbers[CLOCK] += 1
            }
        },
        |step, left| {
            if step.kind == Kind::Order && left.row[0] == 0 && step.numbers[2] == 4 {
                left.numbers[TOTALS] = 0
            }
        },
        |step, left| {
            if step.kind == Kind::Report && left.row[0] == 0 && left.row[3] == 1 {
                left.numbers[ROOTS_TRIPPED] = 0
            }
        },
        |_, left| left.row[0] = if left.row[0] == 17 { 18 } else { left.row[0] },
        |_, left| left.row[0] = if left.row[0] == 2 { 0 } else { left.row[0] },
        |step, left| {
            if let (Kind::Profile, Some(past)) = (step.kind, left.room.get_mut(left.row[1] as usize)) {
                *past = b'\n'
            }
        },
        // a refused event is applied; a report counts as a fill; a cut to nothing is no cut
        |_, left| {
            if left.row[0] == 21 {
                left.numbers[CLOCK] += 1
            }
        },
        |step, left| {
            if step.accounted && step.kind == Kind::Report && left.row[0] == 0 {
                left.account[8 * FIRM_ROW + FILLS] += 1
            }
        },
        |step, left| {
            if step.accounted && step.kind == Kind::Offer && left.row[..3] == [0, 0, 0] {
                left.account[8 * FIRM_ROW + CUTS] -= 1
            }
        },
    ];
    for slip in slips {
        assert!(days(DAYS, SEED, slip).is_err());
    }
}

/// An armed state with absolute and rate rules, and entries in its log.
fn busy() -> Vec<u64> {
    let mut m = vec![0; SIZE];
    let text = b"ABCD,abs_vol,XYZ,1000\nABCD,rate_vol,QR,500,1000,,C,F\nABCD,rate_ntnl,,100000,60000,T\nABCD,abs_ntnl,,900000,,T\n";
    assert_eq!(arm(&mut m, text), [0, 0, 0x4142_4344, 4, 2]);
    for n in 0..50 {
        assert_eq!(offer(&mut m, 10 * n, n % 2, n % 4, 70_000, 2)[0], 0);
    }
    for identity in 0..9 {
        assert_eq!(send(&mut m, 500, identity % 2, identity % 4, 1 + identity, 100, 7_000 * identity, 1 + identity), [0; 5]);
    }
    m
}

#[test]
fn each_single_bit_of_a_state_is_judged_alike_by_hand() {
    let mut m = busy();
    let mut refused = 0;
    for place in 0..SIZE {
        for bit in 0..64 {
            m[place] ^= 1 << bit;
            let row = status(&m);
            assert_eq!(hand::status(&m), row, "bit {bit} of number {place}");
            refused += u64::from(row[0] == 2);
            let mut rooms = [[0xA5; 300]; 2];
            assert_eq!(profile(&m, &mut rooms[0]), hand::profile(&m, &mut rooms[1]), "bit {bit} of number {place}");
            assert_eq!(rooms[0], rooms[1], "bit {bit} of number {place}");
            let (mut one, mut other) = (m.clone(), m.clone());
            assert_eq!(order(&mut one, 1_000, 0, bit % 7), hand::order(&mut other, 1_000, 0, bit % 7));
            assert_eq!(one, other, "bit {bit} of number {place}");
            assert_eq!(report(&mut one, 1_000, 7_000 * (bit % 9), bit), hand::report(&mut other, 1_000, 7_000 * (bit % 9), bit));
            assert_eq!(one, other, "bit {bit} of number {place}");
            m[place] ^= 1 << bit;
        }
    }
    assert!((145_000..64 * SIZE as u64).contains(&refused), "{refused} of the single damaged bits are refused");
}

#[test]
fn profiles_are_read_alike_by_hand() {
    let mut random = Random::new(3);
    let mut seen = [0; 12];
    for seed in 0..200_000 {
        let profile = match seed % 8 {
            0 => gen::profile(seed),
            1 => gen::damaged_profile(seed),
            2 => gen::valid_profile(seed),
            _ => clashing(&mut random),
        };
        let (mut one, mut other) = (vec![0; SIZE], vec![0; SIZE]);
        let row = arm(&mut one, &profile);
        assert_eq!(hand::arm(&mut other, &profile), row, "{}", profile.escape_ascii());
        assert!(one == other, "{}", profile.escape_ascii());
        seen[row[0] as usize] += 1;
    }
    println!("{seen:?}");
    assert!([0, 6, 7, 8, 9, 10, 11].iter().all(|refusal| seen[*refusal] > 1_000) && seen[5] > 50, "{seen:?}");
}
