//! The library's 16-byte records against a packing of bits written here from the request's list of widths, and moving from one form to the other.
use mbrumzheg::{narrow, raw, widen, Event, Record16Writer, Records16, Refusal, Reset, Root, Time, RECORD16_SIZE, RECORD_SIZE};

/// kind, time, root, unit, premium, contracts, reset, level, identity, reports, spare
const WIDTHS: [u32; 11] = [4, 37, 6, 2, 27, 20, 4, 1, 16, 5, 6];

fn packed(fields: [u64; 11]) -> [u8; RECORD16_SIZE] {
    fields.iter().zip(WIDTHS).fold(0u128, |all, (field, width)| all << width | u128::from(*field)).to_be_bytes()
}

/// Whether fields make a record that is not faulty: each in its range, and those that the kind does not use 0.
fn good([kind, time, root, unit, premium, contracts, reset, level, identity, reports, spare]: [u64; 11]) -> bool {
    let (premiums, some) = ((1..=100_000_000).contains(&premium), (1..=1_000_000).contains(&contracts));
    let nothing_sent = identity == 0 && reports == 0;
    let unplaced = root == 0 && unit == 0 && premium == 0;
    let fits = match kind {
        0 => unit == 0 && premium == 0 && contracts == 0 && reset <= 6 && level == 0 && nothing_sent,
        1 => premiums && some && reset == 0 && level == 0 && nothing_sent,
        2 => unit == 0 && premium == 0 && contracts == 0 && reset == 0 && (level == 0 || root == 0) && nothing_sent,
        3 => premiums && some && reset == 0 && level == 0 && (1..=16).contains(&reports),
        4 => unplaced && some && reset == 0 && level == 0 && reports == 0,
        5 => unplaced && contracts == 0 && reset == 0 && level == 0 && reports == 0,
        _ => false,
    };
    fits && time <= 86_399_999_999 && spare == 0
}

/// Whether a good record moves back.
fn moves_back(fields: [u64; 11]) -> bool {
    fields[0] <= 2 && fields[1] % 1_000 == 0 && fields[6] <= 3
}

/// Numbers that look random and are the same on every run.
fn next(seed: &mut u64) -> u64 {
    *seed = seed.wrapping_mul(6_364_136_223_846_793_005).wrapping_add(1_442_695_040_888_963_407);
    *seed >> 20
}

/// Fields that mostly fit their kind, at the ends of their ranges now and then, and one of them wrong in a third of all tries.
fn fields(seed: &mut u64) -> [u64; 11] {
    let usual = [5, 86_399_999_999, 63, 3, 100_000_000, 1_000_000, 6, 1, 65_535, 16, 0];
    let used: [&[usize]; 6] = [&[1, 2, 6], &[1, 2, 3, 4, 5], &[1, 2, 7], &[1, 2, 3, 4, 5, 8, 9], &[1, 5, 8], &[1, 8]];
    let kind = next(seed) % 6;
    let mut fields = [kind, 0, 0, 0, 0, 0, 0, 0, 0, 0, 0];
    for place in used[kind as usize] {
        fields[*place] = match next(seed) % 6 {
            0 => usual[*place],
            1 => 0,
            _ => next(seed) % (usual[*place] + 1),
        };
    }
    if next(seed) % 3 == 0 {
        fields[1] -= fields[1] % 1_000;
    }
    if next(seed) % 3 == 0 {
        let place = (next(seed) % 11) as usize;
        let most = (1u64 << WIDTHS[place]) - 1;
        fields[place] = [most, (usual[place] + 1).min(most), next(seed) % (most + 1), 0][(next(seed) % 4) as usize];
    }
    fields
}

#[test]
fn a_record_is_read_exactly_if_it_is_good_and_written_back_as_it_was() {
    let (mut seed, mut read, mut faulty) = (5, [0; 6], 0);
    for _ in 0..200_000 {
        let fields = fields(&mut seed);
        let bytes = packed(fields);
        match Event::from_record16(&bytes) {
            Ok(event) => {
                assert!(good(fields), "{fields:?} is read as {event:?}");
                assert_eq!(event.to_record16(), Ok(bytes));
                assert_eq!((event.time().us(), event.time().ms()), (fields[1], fields[1] / 1_000));
                read[fields[0] as usize] += 1;
            }
            Err(refusal) => {
                assert_eq!(refusal, Refusal::FaultyRecord);
                assert!(!good(fields), "{fields:?} is refused");
                faulty += 1;
            }
        }
    }
    assert!(read.iter().all(|kind| *kind > 5_000) && faulty > 10_000, "{read:?} read, {faulty} faulty");
}

#[test]
fn a_record_moves_back_exactly_if_the_old_form_has_it() {
    let (mut seed, mut moved, mut unfit) = (9, 0, 0);
    for _ in 0..200_000 {
        let fields = fields(&mut seed);
        let bytes = packed(fields);
        match narrow(&bytes) {
            Ok(old) => {
                assert!(good(fields) && moves_back(fields), "{fields:?} moved");
                assert_eq!(widen(&old), Ok(bytes), "there and back gives the same bytes");
                assert_eq!(Event::from_record(&old), Event::from_record16(&bytes));
                assert_eq!(Event::from_record16(&bytes).and_then(|event| event.to_record()), Ok(old));
                moved += 1;
            }
            Err(Refusal::Unfit) => {
                assert!(good(fields) && !moves_back(fields), "{fields:?} does not fit");
                assert_eq!(Event::from_record16(&bytes).and_then(|event| event.to_record()), Err(Refusal::FaultyRecord));
                unfit += 1;
            }
            Err(refusal) => assert!(refusal == Refusal::FaultyRecord && !good(fields), "{fields:?}: {refusal}"),
        }
    }
    assert!(moved > 10_000 && unfit > 10_000, "{moved} moved, {unfit} unfit");
}

#[test]
fn calls_refuse_in_their_order_and_touch_no_more_than_the_record() {
    let closing = [5, 10, 0, 0, 0, 0, 0, 0, 7, 0];
    let mut room = [9; 18];
    assert_eq!(raw::write_record16([6, 10, 0, 0, 0, 0, 0, 0, 7, 0], &mut room[..3]), [16, 0, 0, 0, 0]);
    assert_eq!(raw::write_record16([5, u64::MAX, 0, 0, 0, 0, 0, 0, 7, 0], &mut room), [16, 0, 0, 0, 0]);
    assert_eq!(raw::write_record16(closing, &mut room[..15]), [1, 0, 0, 0, 0]);
    assert_eq!(room, [9; 18], "a refusal changes nothing");
    assert_eq!(raw::write_record16(closing, &mut room), [0; 5]);
    let record = packed([5, 10, 0, 0, 0, 0, 0, 0, 7, 0, 0]);
    assert_eq!((&room[..16], &room[16..]), (&record[..], &[9, 9][..]));
    assert_eq!(raw::read_record16(&room[..16]), [0, 5, 10, 0, 0, 0, 0, 0, 0, 7, 0, 0, 0]);
    assert_eq!(raw::read_record16(&room[..15])[..2], [16, 0]);
    let mut room = [9; 18];
    assert_eq!([raw::narrow(&record, &mut room[..3])[0], raw::narrow(&record[..15], &mut room[..3])[0]], [20, 16]);
    let order = packed([0, 5_000, 3, 0, 0, 0, 3, 0, 0, 0, 0]);
    assert_eq!(raw::narrow(&order, &mut room[..11])[0], 1);
    assert_eq!(room, [9; 18], "a refusal changes nothing");
    assert_eq!(raw::narrow(&order, &mut room)[0], 0);
    assert_eq!(room[12..], [9; 6]);
    let old: [u8; RECORD_SIZE] = room[..12].try_into().expect("12 bytes");
    assert_eq!([raw::widen(&old[..11], &mut room)[0], raw::widen(&old, &mut room[..15])[0], raw::widen(&old, &mut room)[0]], [16, 1, 0]);
    assert_eq!((&room[..16], &room[16..]), (&order[..], &[9, 9][..]));
}

#[test]
fn every_event_has_a_record_and_records_come_one_after_the_other() {
    let (mut seed, mut events, mut writer) = (11, Vec::new(), Record16Writer::new(Vec::new()));
    while events.len() < 100 {
        events.extend(Event::from_record16(&packed(fields(&mut seed))));
    }
    events.extend(Reset::ALL.map(|reset| Event::Order { time: Time::LAST, root: Root::new(63).expect("a root"), reset }));
    events.iter().for_each(|event| writer.write(event).expect("memory takes bytes"));
    let mut bytes = writer.finish().expect("memory takes bytes");
    assert_eq!((bytes.len(), Records16::new(&bytes).len()), (107 * RECORD16_SIZE, 107));
    assert!(Records16::new(&bytes).map(|record| record.expect("a good record")).eq(events.iter().copied()));
    bytes.pop();
    assert_eq!(Records16::new(&bytes).last(), Some(Err(Refusal::FaultyRecord)), "a short last record");
}
