//! What there is without an allocator: a unit on lent memory, records, and values as text. It runs with every choice of features.
use mbrumzheg::{Adopted, Event, Level, Records16, Refusal, Reset, RoomRefusal, Time, Unit, Verdict, PROFILE_MOST, RECORD16_SIZE, SIZE};

#[test]
fn a_day_on_lent_memory() {
    let mut lent = [9; SIZE + 1];
    let mut unit = Unit::cleared(&mut lent[..]).expect("long enough").arm("ABCD,abs_vol,XYZ,1000").expect("accepted");
    let root = unit.root_named("XYZ").expect("the profile has it");
    let time: Time = "09:30".parse().expect("a time");
    let mut day = [0; 2 * RECORD16_SIZE];
    let events = [Event::Lockout { time, level: Level::Root(root) }, Event::Order { time, root, reset: Reset::None }];
    for (room, event) in day.chunks_mut(RECORD16_SIZE).zip(events) {
        room.copy_from_slice(&event.to_record16().expect("every event has a record"));
    }
    let verdicts = Records16::new(&day).map(|record| record.and_then(|event| unit.answer(event)).map(|answer| answer.verdict));
    assert!(verdicts.eq([Ok(Verdict::Free), Ok(Verdict::RootLocked)]));
    assert_eq!((unit.firm().as_str(), unit.clock()), ("ABCD", time));
    assert_eq!(lent[SIZE], 9, "what is lent beyond the state is untouched");
    assert!(matches!(Unit::adopt(&mut lent[..]), Ok(Adopted::Armed(_))));
    assert_eq!(Unit::adopt(&mut lent[..SIZE - 1]).map(|_| ()).map_err(|refused| refused.why), Err(Refusal::NoRoom));
}

#[test]
fn the_rules_are_written_to_lent_room() {
    const TEXT: &str = "ABCD,rate_vol,XYZ,500,100\nABCD,abs_vol,,7,,T\n";
    let mut lent = [0; SIZE];
    let unit = Unit::cleared(&mut lent[..]).expect("long enough").arm("ABCD,rate_vol,XYZ,0500,0\nABCD,abs_vol,,7,5,T").expect("accepted");
    let mut room = [9; PROFILE_MOST];
    let refused = unit.profile_into(&mut room[..TEXT.len() - 1]).expect_err("one byte is missing");
    assert_eq!(refused, RoomRefusal { refusal: Refusal::NoRoom, needed: Some(TEXT.len()) });
    assert_eq!(room, [9; PROFILE_MOST], "a refusal writes nothing");
    assert_eq!(unit.profile_into(&mut room[..TEXT.len()]), Ok(TEXT));
    assert_eq!(room[TEXT.len()..], [9; PROFILE_MOST][TEXT.len()..], "what is lent beyond the text is untouched");
}
