//! Request 1 of document 02: the active rules as profile text again.

mod common;

use common::armed;
use second::gen;
use second::lent::{Lent, Row};
use second::place::NUMBERS;
use second::unit::Unit;

/// What a unit armed from the text writes.
fn written(text: &[u8]) -> Vec<u8> {
    let mut unit = Unit::new();
    assert_eq!(unit.arm(text).refusal, 0);
    text_of(&unit)
}

/// What a unit writes into room that just holds it.
fn text_of(unit: &Unit) -> Vec<u8> {
    let size = unit.profile(&mut []).size;
    let mut room = vec![7; size as usize];
    assert_eq!(unit.profile(&mut room).numbers(), [0, size]);
    room
}

/// The row of Profile on lent numbers.
fn row(lent: &mut Lent, room: &mut [u8]) -> Row {
    lent.ask(|unit| {
        let [refusal, size] = unit.profile(room).numbers();
        [refusal, size, 0, 0, 0]
    })
}

#[test]
fn a_line_of_each_sort() {
    let lines = [
        "AB,rate_ntnl,XYZ,1000,60000\n",
        "AB,rate_vol,,500,1000,T\n",
        "AB,rate_count,Q,10,100,,C,F\n",
        "AB,abs_ntnl,Q,100000000000\n",
        "AB,abs_vol,,1000000000,,T\n",
        "AB,abs_count,XYZ,7,,,C,T\n",
        "AB,abs_vol,Q,1,,,P,F\n",
        "AB,rate_vol,Q,1,86400000,,P,T\n",
    ];
    assert_eq!(written(lines.concat().as_bytes()), lines.concat().as_bytes());
}

#[test]
fn no_leading_zeros_and_effective_windows() {
    let text = b"A,rate_vol,X,000000000500,000000001000\nA,rate_vol,X,1\nA,rate_vol,X,1,0\nA,rate_vol,X,1,99\nA,rate_vol,X,1,101\nA,abs_ntnl,X,0010";
    let same = "A,rate_vol,X,500,1000\nA,rate_vol,X,1,100\nA,rate_vol,X,1,100\nA,rate_vol,X,1,100\nA,rate_vol,X,1,101\nA,abs_ntnl,X,10\n";
    assert_eq!(written(text), same.as_bytes());
}

#[test]
fn free_fields_and_empty_ends_are_dropped() {
    let text = b"A,abs_vol,X,1,250,F,,\nA,abs_vol,X,2,none,t,P,T\nA,rate_vol,X,3,250,\r,,\nA,abs_vol,,4,9,T,,\nA,abs_vol,Y,5,,,,";
    assert_eq!(written(text), b"A,abs_vol,X,1\nA,abs_vol,X,2,,,P,T\nA,rate_vol,X,3,250\nA,abs_vol,,4,,T\nA,abs_vol,Y,5\n");
}

#[test]
fn equal_rules_stay_two_and_keep_their_order() {
    let text = "A,abs_vol,Y,9\nA,abs_vol,X,1\nA,abs_vol,,1,,T\nA,abs_vol,X,1\n";
    assert_eq!(written(text.as_bytes()), text.as_bytes());
}

#[test]
fn arming_with_it_gives_the_same_numbers_and_the_same_text() {
    for seed in 0..2_000 {
        let mut lent = Lent::new(vec![0; NUMBERS]);
        assert_eq!(lent.arm(&gen::valid_profile(seed))[0], 0);
        let before = lent.numbers().to_vec();
        let text = text_of(lent.unit());
        assert!(text.ends_with(b"\n") && text.split(|byte| *byte == b'\n').all(|line| !line.ends_with(b",")), "seed {seed}");
        lent.clear();
        assert_eq!(lent.arm(&text)[0], 0, "seed {seed}");
        assert_eq!(lent.numbers(), before, "seed {seed}");
        assert_eq!(text_of(lent.unit()), text, "seed {seed}");
    }
}

#[test]
fn what_was_done_in_the_day_is_not_in_it() {
    for seed in 0..50 {
        let text = gen::valid_profile(seed);
        let mut unit = Unit::new();
        unit.arm(&text);
        let first = text_of(&unit);
        for call in gen::events_near(seed, 300, &text).iter().filter(|call| call.record().is_some()) {
            call.run(&mut unit);
        }
        assert_eq!(text_of(&unit), first, "seed {seed}");
    }
}

#[test]
fn short_room_is_refused_with_the_size_needed() {
    let unit = armed("AB,abs_vol,XYZ,0050,0");
    for length in 0..18 {
        let mut room = vec![7; length];
        assert_eq!(unit.profile(&mut room).numbers(), [1, 18]);
        assert_eq!(room, vec![7; length]);
    }
    let mut room = [7; 21];
    assert_eq!(unit.profile(&mut room).numbers(), [0, 18]);
    assert_eq!(&room, b"AB,abs_vol,XYZ,50\n\x07\x07\x07");
}

#[test]
fn short_memory_then_4_then_2_then_room() {
    let mut room = [7; 64];
    let mut lent = Lent::new(vec![0; NUMBERS]);
    assert_eq!(row(&mut lent, &mut []), [4, 0, 0, 0, 0]);
    assert_eq!(lent.arm(b"A,abs_vol,X,5")[0], 0);
    assert_eq!(row(&mut lent, &mut []), [1, 14, 0, 0, 0]);
    lent.set_length(NUMBERS - 1);
    assert_eq!(row(&mut lent, &mut []), [1, 0, 0, 0, 0]);
    lent.set_length(NUMBERS);
    lent.numbers_mut()[0] = 2;
    assert_eq!(row(&mut lent, &mut []), [2, 0, 0, 0, 0]);
    assert_eq!(row(&mut lent, &mut room), [2, 0, 0, 0, 0]);
    assert_eq!(room, [7; 64]);
    lent.numbers_mut()[0] = 1;
    let before = lent.numbers().to_vec();
    assert_eq!(row(&mut lent, &mut room), [0, 14, 0, 0, 0]);
    assert_eq!(lent.numbers(), before);
}
