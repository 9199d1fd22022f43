//! Each refusal from 1 to 16 comes up where it should, and changes nothing; tests/away.rs has those from 17 on.
mod common;

use common::{armed, root, time};
use mbrumzheg::{raw, Adopted, Contracts, Event, Level, Offer, Premium, Refusal, Reset, Root, Time, Unit, UnitOfRoot, Verdict, SIZE};

const EXAMPLE: &str = "ABCD,abs_vol,XYZ,1000,0";

/// An offer at $1, on a root that the profile may not have.
fn offer(ms: u64, on: u64, contracts: u64) -> Offer {
    Offer { root: root(on), ..common::offer(ms, UnitOfRoot::PutsTrailing, 1, contracts) }
}

/// What arming a profile is refused with, and at which line.
fn arming(profile: impl AsRef<[u8]>) -> (u64, Option<u64>) {
    let refused = Unit::new().arm(profile).expect_err("the profile is refused");
    assert!(refused.kept.memory().iter().all(|number| *number == 0), "a refusal changes nothing");
    (refused.why.refusal.number(), refused.why.line)
}

#[test]
fn every_refusal_has_a_number_a_name_and_a_sentence_of_its_own() {
    for (place, refusal) in Refusal::ALL.iter().enumerate() {
        assert_eq!(refusal.number(), place as u64 + 1);
        assert_eq!(Refusal::from_number(refusal.number()), Some(*refusal));
        assert!(refusal.to_string().contains(&format!("with {}: {}", refusal.number(), refusal.sentence())));
        for other in &Refusal::ALL[..place] {
            assert!(other.name() != refusal.name() && other.sentence() != refusal.sentence());
        }
    }
    assert!(Refusal::NoRoom.sentence().replace(',', "").contains(&format!("fewer than {SIZE} numbers")));
    assert_eq!((Refusal::from_number(0), Refusal::from_number(Refusal::ALL.len() as u64 + 1)), (None, None));
    assert_eq!(Refusal::from_number(u64::MAX), None);
}

#[test]
fn short_memory_is_refused_with_1_and_given_back() {
    let mut short = vec![5; SIZE - 1];
    let refused = Unit::adopt(&mut short[..]).expect_err("one number is missing");
    assert_eq!(refused.why, Refusal::NoRoom);
    let refused = Unit::cleared(refused.kept).expect_err("one number is missing");
    assert_eq!((refused.why, refused.kept.len()), (Refusal::NoRoom, SIZE - 1));
    assert_eq!(short, vec![5; SIZE - 1]);
    assert_eq!(raw::text(1, &mut [0; 19]), [1, 0, 0, 0, 0]);
    assert_eq!(raw::profile(&short, &mut []), [1, 0, 0, 0, 0]);
}

#[test]
fn room_that_is_short_for_a_profile_is_refused_with_1_and_the_size_after_4_and_2() {
    let mut memory = armed(EXAMPLE).into_memory();
    let mut room = [9; 22];
    assert_eq!(raw::profile(&memory, &mut []), [1, 22, 0, 0, 0]);
    assert_eq!((raw::profile(&memory, &mut room[..21]), room), ([1, 22, 0, 0, 0], [9; 22]));
    assert_eq!((raw::profile(&memory, &mut room), &room), ([0, 22, 0, 0, 0], b"ABCD,abs_vol,XYZ,1000\n"));
    let unit = armed(EXAMPLE);
    let refused = unit.profile_into(&mut room[..21]).expect_err("one byte is missing");
    assert_eq!((Refusal::from(refused), refused.needed), (Refusal::NoRoom, Some(22)));
    assert_eq!(refused.to_string(), format!("{} (it takes 22 bytes)", Refusal::NoRoom));
    memory[SIZE - 1] = 7;
    assert_eq!(raw::profile(&memory, &mut []), [2, 0, 0, 0, 0]);
    assert_eq!(raw::profile(&[0; SIZE], &mut []), [4, 0, 0, 0, 0]);
}

#[test]
fn memory_without_a_sound_state_is_refused_with_2() {
    let mut memory = armed(EXAMPLE).into_memory();
    memory[SIZE - 1] = 7;
    let refused = Unit::adopt(memory).expect_err("a place that is not used holds a number");
    assert_eq!((refused.why, refused.kept[SIZE - 1]), (Refusal::Unsound, 7));
}

#[test]
fn arming_armed_memory_is_3_and_calls_on_unarmed_memory_are_4() {
    // the types leave no way to these two, so the calls themselves are asked
    let mut memory = armed(EXAMPLE).into_memory();
    assert_eq!(raw::arm(&mut memory, EXAMPLE.as_bytes()), [3, 0, 0, 0, 0]);
    let mut zeros = vec![0; SIZE];
    assert_eq!(raw::order(&mut zeros, 0, 0, 0), [4, 0, 0, 0, 0]);
    assert_eq!(raw::offer(&mut zeros, 0, 0, 0, 1, 1), [4, 0, 0, 0, 0]);
    assert_eq!(raw::lockout(&mut zeros, 0, 1, 0), [4, 0, 0, 0, 0]);
    assert_eq!(raw::remaining(&zeros, 0, 0, 0), [4, 0, 0, 0, 0]);
    assert_eq!(raw::status(&zeros), [4, 0, 0, 0, 0]);
}

#[test]
fn profiles_are_refused_with_5_to_11_and_the_line() {
    assert_eq!(arming(""), (5, None));
    assert_eq!(arming(vec![b'A'; 65_537]), (5, None));
    assert_eq!(arming(format!("{EXAMPLE}\n\n")), (6, Some(2)));
    assert_eq!(arming("ABCD,abs_volume,XYZ,1000"), (6, Some(1)));
    assert_eq!(arming(format!("{EXAMPLE}\n{EXAMPLE}\nABCE,abs_vol,XYZ,1")), (7, Some(3)));
    assert_eq!(arming("ABCD,rate_vol,XYZ,1000,86400001"), (8, Some(1)));
    assert_eq!(arming("ABCD,abs_vol,XYZ,1000,,T"), (9, Some(1)));
    assert_eq!(arming("ABCD,abs_vol,XYZ,1000,,,C"), (10, Some(1)));
    assert_eq!(arming(format!("{EXAMPLE}\n").repeat(7)), (11, Some(7)));
    let refused = Unit::new().arm("ABCD,abs_vol,XYZ,0").expect_err("a limit of 0");
    assert_eq!(refused.to_string(), "refused with 8 at line 1: the line's limit or time limit is out of range");
}

#[test]
fn times_numbers_and_amounts_are_refused_with_12_13_and_14() {
    assert_eq!(Time::from_ms(86_400_000), Err(Refusal::BadTime));
    assert_eq!(Root::new(64), Err(Refusal::Unknown));
    assert_eq!(UnitOfRoot::from_number(4), Err(Refusal::Unknown));
    assert_eq!(Reset::from_number(7), Err(Refusal::Unknown));
    assert_eq!(Verdict::from_number(3), Err(Refusal::Unknown));
    for n in [0, 100_000_001, u64::MAX] {
        assert_eq!(Premium::from_ten_thousandths(n), Err(Refusal::BadAmount));
    }
    for n in [0, 1_000_001, u64::MAX] {
        assert_eq!(Contracts::new(n), Err(Refusal::BadAmount));
    }
    let mut unit = armed(EXAMPLE);
    assert_eq!(unit.order(time(50), root(0), Reset::None), Ok(Verdict::Free));
    let before = unit.memory().to_vec();
    assert_eq!(unit.order(time(49), root(0), Reset::Both), Err(Refusal::BadTime));
    assert_eq!(unit.lockout(time(49), Level::Firm), Err(Refusal::BadTime));
    assert_eq!(unit.remaining(time(49), 0, UnitOfRoot::CallsFront), Err(Refusal::BadTime));
    assert_eq!(unit.offer(offer(60, 1, 1)), Err(Refusal::Unknown));
    assert_eq!(unit.lockout(time(60), Level::Root(root(1))), Err(Refusal::Unknown));
    for rule in [1, u64::MAX] {
        assert_eq!(unit.remaining(time(60), rule, UnitOfRoot::CallsFront), Err(Refusal::Unknown));
    }
    assert_eq!(unit.memory(), before, "refusals change nothing");
    let mut memory = unit.into_memory();
    assert_eq!(raw::offer(&mut memory, 60, 0, 0, 0, 1), [14, 0, 0, 0, 0]);
}

#[test]
fn the_513th_fill_inside_the_longest_window_is_refused_with_15() {
    let mut unit = armed("ABCD,rate_vol,XYZ,1000000,60000");
    for n in 0..512 {
        assert_eq!(unit.offer(offer(n, 0, 1)).map(|answer| answer.grant), Ok(1));
    }
    assert_eq!(unit.offer(offer(1_000, 0, 1)), Err(Refusal::LogFull));
    assert_eq!(unit.clock(), time(511), "a refusal leaves the clock");
    assert_eq!(unit.offer(offer(60_000, 0, 1)).map(|answer| answer.grant), Ok(1), "the first has left");
}

#[test]
fn faulty_records_are_refused_with_16() {
    let order = Event::Order { time: time(10), root: root(0), reset: Reset::None };
    let good = order.to_record().expect("an order without a reset");
    for length in [0, 11, 13] {
        let bytes: Vec<u8> = good.iter().copied().chain([0]).take(length).collect();
        assert_eq!(Event::from_record(&bytes), Err(Refusal::FaultyRecord), "{length} bytes");
    }
    // every bit above the fields that an order has, and one at a time
    for (place, bit) in [(0, 0xC0), (4, 0x18), (5, 0x01), (11, 0x01), (10, 0x10), (10, 0x02)] {
        let mut bytes = good;
        bytes[place] |= bit;
        assert_eq!(Event::from_record(&bytes), Err(Refusal::FaultyRecord), "byte {place}, bit {bit:#x}");
    }
    let late = Event::Order { time: time(86_399_999), root: root(0), reset: Reset::None };
    let mut bytes = late.to_record().expect("the last millisecond");
    assert_eq!(Event::from_record(&bytes), Ok(late));
    bytes[0] |= 0x3F;
    assert_eq!(Event::from_record(&bytes), Err(Refusal::FaultyRecord), "a time beyond the day");
}

#[test]
fn adopting_says_what_the_memory_holds() {
    let Ok(Adopted::Unarmed(unit)) = Unit::adopt(vec![0; SIZE]) else { panic!("zeros are not armed") };
    let memory = unit.arm(EXAMPLE).expect("accepted").into_memory();
    let Ok(Adopted::Armed(unit)) = Unit::adopt(memory) else { panic!("an armed state is armed") };
    assert_eq!(unit.firm().as_str(), "ABCD");
}
