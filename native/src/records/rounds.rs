//! Rounds over records: reading, writing and moving each of many, by the library, the second program and the hand-written calls.

use std::hint::black_box;
use std::rc::Rc;

use second::gen::Random;
use second::moving;
use second::records::{self, Record};
use second::records16::{self, Record16};

use super::forms::{Event, Form, NEW, OLD};
use crate::hand;

/// How many records are gone through in a round, more than a processor learns by heart.
pub const RECORDS: usize = 8_000;

type Reader<const ROW: usize> = fn(&[u8]) -> [u64; ROW];
type Writer<const NUMBERS: usize> = fn([u64; NUMBERS], &mut [u8]) -> u64;
type Mover = fn(&[u8], &mut [u8]) -> u64;

/// The library, the second program, by hand.
const READERS: [Reader<9>; 3] = [crate::read_record, |bytes| records::read(bytes).numbers(), hand::read_record];
const WRITERS: [Writer<8>; 3] = [|event, room| crate::write_record(event, room)[0], second_writer, hand::write_record];
const READERS16: [Reader<13>; 3] = [crate::read_record16, |bytes| records16::read(bytes).numbers(), hand::read_record16];
const WRITERS16: [Writer<10>; 3] = [|event, room| crate::write_record16(event, room)[0], second_writer16, hand::write_record16];
const WIDENERS: [Mover; 3] = [|bytes, room| crate::widen(bytes, room)[0], |bytes, room| moving::widen(bytes, room).refusal, hand::widen];
const NARROWERS: [Mover; 3] =
    [|bytes, room| crate::narrow(bytes, room)[0], |bytes, room| moving::narrow(bytes, room).refusal, hand::narrow];

fn second_writer([kind, time, root, unit, premium, contracts, reset, level]: [u64; 8], room: &mut [u8]) -> u64 {
    records::write(&Record { kind, time, root, unit, premium, contracts, reset, level }, room).refusal
}

fn second_writer16(event: Event, room: &mut [u8]) -> u64 {
    let [kind, time, root, unit, premium, contracts, reset, level, identity, reports] = event;
    records16::write(&Record16 { kind, time, root, unit, premium, contracts, reset, level, identity, reports }, room).refusal
}

/// One round over all records.
pub type Round = Box<dyn FnMut()>;

/// What may be done with a record, and a round of each way: nothing but going through them, the library, the second program, by hand.
pub struct Rounds {
    pub name: &'static str,
    pub ways: [Round; 4],
}

/// Valid events of a form, in the numbers that it has.
fn events<const NUMBERS: usize>(form: &Form) -> Rc<Vec<[u64; NUMBERS]>> {
    let mut random = Random::new(1);
    let event = |_| {
        let whole = form.valid(&mut random);
        std::array::from_fn(|place| whole[place])
    };
    Rc::new((0..RECORDS).map(event).collect())
}

/// The records of events.
fn written<const NUMBERS: usize, const BYTES: usize>(events: &[[u64; NUMBERS]], writer: Writer<NUMBERS>) -> Rc<Vec<[u8; BYTES]>> {
    let mut rooms = vec![[0; BYTES]; events.len()];
    events.iter().zip(&mut rooms).for_each(|(event, room)| assert_eq!(writer(*event, room), 0));
    Rc::new(rooms)
}

/// The same records, each moved.
fn all_moved<const FROM: usize, const TO: usize>(records: &[[u8; FROM]], mover: Mover) -> Rc<Vec<[u8; TO]>> {
    let mut rooms = vec![[0; TO]; records.len()];
    records.iter().zip(&mut rooms).for_each(|(record, room)| assert_eq!(mover(record, room), 0));
    Rc::new(rooms)
}

/// A round that goes through all and does nothing.
fn nothing<Item: 'static>(items: &Rc<Vec<Item>>) -> Round {
    let items = Rc::clone(items);
    Box::new(move || {
        for item in items.iter() {
            black_box(item);
        }
    })
}

fn reading<const ROW: usize, const BYTES: usize>(records: &Rc<Vec<[u8; BYTES]>>, readers: [Reader<ROW>; 3]) -> [Round; 4] {
    let way = |reader: Reader<ROW>| -> Round {
        let records = Rc::clone(records);
        Box::new(move || {
            for record in records.iter() {
                black_box(reader(black_box(record)));
            }
        })
    };
    let [library, second, by_hand] = readers.map(way);
    [nothing(records), library, second, by_hand]
}

fn writing<const NUMBERS: usize, const BYTES: usize>(events: &Rc<Vec<[u64; NUMBERS]>>, writers: [Writer<NUMBERS>; 3]) -> [Round; 4] {
    let way = |writer: Writer<NUMBERS>| -> Round {
        let (events, mut rooms) = (Rc::clone(events), vec![[0; BYTES]; events.len()]);
        Box::new(move || {
            for (event, room) in events.iter().zip(&mut rooms) {
                black_box(writer(black_box(*event), room));
            }
        })
    };
    let [library, second, by_hand] = writers.map(way);
    [nothing(events), library, second, by_hand]
}

fn moving<const FROM: usize, const TO: usize>(records: &Rc<Vec<[u8; FROM]>>, movers: [Mover; 3]) -> [Round; 4] {
    let way = |mover: Mover| -> Round {
        let (records, mut rooms) = (Rc::clone(records), vec![[0; TO]; records.len()]);
        Box::new(move || {
            for (record, room) in records.iter().zip(&mut rooms) {
                black_box(mover(black_box(record), room));
            }
        })
    };
    let [library, second, by_hand] = movers.map(way);
    [nothing(records), library, second, by_hand]
}

/// Rounds of all that may be done with a record.
pub fn rounds() -> [Rounds; 6] {
    let (old, new) = (events::<8>(&OLD), events::<10>(&NEW));
    let (old_records, new_records) = (written::<8, 12>(&old, hand::write_record), written::<10, 16>(&new, hand::write_record16));
    let fitting = all_moved::<12, 16>(&old_records, hand::widen);
    [
        Rounds { name: "Record of 12 bytes read", ways: reading(&old_records, READERS) },
        Rounds { name: "Record of 12 bytes written", ways: writing::<8, 12>(&old, WRITERS) },
        Rounds { name: "Record of 16 bytes read", ways: reading(&new_records, READERS16) },
        Rounds { name: "Record of 16 bytes written", ways: writing::<10, 16>(&new, WRITERS16) },
        Rounds { name: "Record widened to 16 bytes", ways: moving::<12, 16>(&old_records, WIDENERS) },
        Rounds { name: "Record narrowed to 12 bytes", ways: moving::<16, 12>(&fitting, NARROWERS) },
    ]
}
