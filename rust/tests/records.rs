//! The library's records of the old form against a packing of bits written here from the scope paper's list of widths.
use mbrumzheg::{raw, Event, RecordWriter, Records, Refusal, Reset, Root, Time, RECORD_SIZE};
use std::io::ErrorKind;

/// kind, time, root, unit, premium, contracts, reset, level, spare
const WIDTHS: [u32; 9] = [2, 27, 6, 2, 27, 20, 2, 1, 9];

fn packed(fields: [u64; 9]) -> [u8; RECORD_SIZE] {
    let all = fields.iter().zip(WIDTHS).fold(0u128, |all, (field, width)| all << width | u128::from(*field));
    all.to_be_bytes()[4..].try_into().expect("12 bytes")
}

/// Whether fields make a record that is not faulty.
fn good([kind, time, root, unit, premium, contracts, reset, level, spare]: [u64; 9]) -> bool {
    let filled = (1..=100_000_000).contains(&premium) && (1..=1_000_000).contains(&contracts);
    let unfilled = unit == 0 && premium == 0 && contracts == 0;
    let fits = match kind {
        0 => unfilled && level == 0,
        1 => filled && reset == 0 && level == 0,
        2 => unfilled && reset == 0 && (level == 0 || root == 0),
        _ => false,
    };
    fits && time <= 86_399_999 && spare == 0
}

/// Numbers that look random and are the same on every run.
fn next(seed: &mut u64) -> u64 {
    *seed = seed.wrapping_mul(6_364_136_223_846_793_005).wrapping_add(1_442_695_040_888_963_407);
    *seed >> 20
}

/// A field's value: mostly one that is allowed, at its ends now and then.
fn field(seed: &mut u64, place: usize) -> u64 {
    let most = (1u64 << WIDTHS[place]) - 1;
    let usual = [2, 86_399_999, 63, 3, 100_000_000, 1_000_000, 3, 1, 0][place];
    match next(seed) % 12 {
        0 => most,
        1 => usual,
        2 => (usual + 1).min(most),
        3..=6 => 0,
        _ => next(seed) % (usual + 1),
    }
}

#[test]
fn a_record_is_read_exactly_if_it_is_good_and_written_back_as_it_was() {
    let (mut seed, mut read, mut faulty) = (5, 0, 0);
    for _ in 0..200_000 {
        let mut fields: [u64; 9] = std::array::from_fn(|place| field(&mut seed, place));
        if fields[0] != 1 && next(&mut seed) % 4 > 0 {
            (fields[3], fields[4], fields[5]) = (0, 0, 0);
        }
        let bytes = packed(fields);
        match Event::from_record(&bytes) {
            Ok(event) => {
                assert!(good(fields), "{fields:?} is read as {event:?}");
                assert_eq!(event.to_record(), Ok(bytes));
                assert_eq!(event.time().ms(), fields[1]);
                read += 1;
            }
            Err(refusal) => {
                assert_eq!(refusal, Refusal::FaultyRecord);
                assert!(!good(fields), "{fields:?} is refused");
                faulty += 1;
            }
        }
    }
    assert!(read > 10_000 && faulty > 10_000, "{read} read, {faulty} faulty");
}

#[test]
fn the_writer_refuses_with_16_and_then_1() {
    let order = [0, 10, 0, 0, 0, 0, 0, 0];
    let mut room = [9; 14];
    assert_eq!(raw::write_record([3, 10, 0, 0, 0, 0, 0, 0], &mut room[..3]), [16, 0, 0, 0, 0]);
    assert_eq!(raw::write_record([0, u64::MAX, 0, 0, 0, 0, 0, 0], &mut room), [16, 0, 0, 0, 0]);
    assert_eq!(raw::write_record(order, &mut room[..11]), [1, 0, 0, 0, 0]);
    assert_eq!(room, [9; 14], "a refusal changes nothing");
    assert_eq!(raw::write_record(order, &mut room), [0; 5]);
    assert_eq!((&room[..12], &room[12..]), (&packed([0, 10, 0, 0, 0, 0, 0, 0, 0])[..], &[9, 9][..]));
    assert_eq!(raw::read_record(&room[..12]), (0, order));
    assert_eq!(raw::read_record(&room[..11]), (16, [0; 8]));
}

#[test]
fn a_reset_above_3_has_no_record_of_12_bytes() {
    let mut room = [9; RECORD_SIZE];
    for reset in [4, 5, 6, 7, u64::MAX] {
        assert_eq!(raw::write_record([0, 10, 0, 0, 0, 0, reset, 0], &mut room), [16, 0, 0, 0, 0], "{reset}");
    }
    assert_eq!(raw::write_record([0, 10, 0, 0, 0, 0, 4, 0], &mut room[..3]), [16, 0, 0, 0, 0], "16 comes before 1");
    assert_eq!(room, [9; RECORD_SIZE], "a refusal changes nothing");
    let mut writer = RecordWriter::new(Vec::new());
    for reset in Reset::ALL {
        let order = Event::Order { time: Time::START, root: Root::new(7).expect("a root"), reset };
        if reset <= Reset::Both {
            writer.write(&order).expect("memory takes bytes");
            continue;
        }
        assert_eq!(order.to_record(), Err(Refusal::FaultyRecord), "{reset}");
        let error = writer.write(&order).expect_err("no record");
        assert_eq!(error.kind(), ErrorKind::InvalidInput);
        assert_eq!(error.get_ref().and_then(|why| why.downcast_ref()), Some(&Refusal::FaultyRecord));
    }
    assert_eq!(writer.finish().expect("memory takes bytes").len(), 4 * RECORD_SIZE);
}

#[test]
fn a_time_between_milliseconds_has_no_record_of_12_bytes() {
    let order = |us| Event::Order { time: Time::from_us(us).expect("a time"), root: Root::new(7).expect("a root"), reset: Reset::None };
    assert_eq!([order(1_001), order(1_999)].map(|order| order.to_record()), [Err(Refusal::FaultyRecord); 2]);
    assert_eq!(order(1_000).to_record().map(|record| raw::read_record(&record).1[1]), Ok(1));
}

#[test]
fn records_come_one_after_the_other() {
    let (mut seed, mut events, mut writer) = (11, Vec::new(), RecordWriter::new(Vec::new()));
    while events.len() < 100 {
        let fields = std::array::from_fn(|place| field(&mut seed, place));
        events.extend(Event::from_record(&packed(fields)));
    }
    for event in &events {
        writer.write(event).expect("memory takes bytes");
    }
    let mut bytes = writer.finish().expect("memory takes bytes");
    assert_eq!(Records::new(&bytes).len(), 100);
    assert!(Records::new(&bytes).map(|record| record.expect("a good record")).eq(events.iter().copied()));
    bytes.pop();
    assert_eq!(Records::new(&bytes).last(), Some(Err(Refusal::FaultyRecord)), "a short last record");
}
