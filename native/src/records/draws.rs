//! Bytes and numbers drawn for the calls on event records.

use second::gen::Random;

use super::forms::{Event, Fault, Form};
use super::seen::LONGEST;

/// How the bytes or numbers of a call were drawn.
#[derive(Clone, Copy, PartialEq, Eq)]
pub enum Drawn {
    Valid,
    Faulty(Fault),
    OtherLength,
    Flipped,
}

/// Numbers at the ends of ranges, and just past them.
const ENDS: [u64; 17] =
    [0, 1, 3, 4, 6, 7, 16, 17, 64, 65_536, 1_000_001, 1 << 20, 86_400_000, 100_000_001, 1 << 27, 86_400_000_000, 1 << 37];

/// Bytes of a valid event, often with one fault or flipped bits, at times of another length or any bytes at all.
pub fn some_bytes(random: &mut Random, form: &Form) -> (Vec<u8>, Drawn) {
    let mut bytes = form.packed(&form.valid(random), 0);
    match random.below(20) {
        0..=7 => return (bytes, Drawn::Valid),
        8..=12 => {
            let fault = random.pick(&form.faults_of_bytes());
            let (event, spare) = match fault {
                Fault::Spare => (form.valid(random), form.any_spare(random)),
                _ => (form.faulty(random, fault), 0),
            };
            return (form.packed(&event, spare), Drawn::Faulty(fault));
        }
        13..=15 => {
            let length = random.below(LONGEST as u64) as usize;
            bytes.resize(if length < form.bytes { length } else { length + 1 }, 0);
            return (bytes, Drawn::OtherLength);
        }
        16..=18 => {
            for _ in 0..random.pick(&[1, 1, 2, 6]) {
                bytes[random.below(form.bytes as u64) as usize] ^= 1 << random.below(8);
            }
        }
        _ => bytes.iter_mut().for_each(|byte| *byte = random.number() as u8),
    }
    (bytes, Drawn::Flipped)
}

/// A valid event, often with one fault, at times with any numbers in some places.
pub fn some_event(random: &mut Random, form: &Form) -> (Event, Drawn) {
    let mut event = form.valid(random);
    match random.below(10) {
        0..=3 => return (event, Drawn::Valid),
        4..=7 => {
            let fault = random.pick(&form.faults_of_numbers());
            return (form.faulty(random, fault), Drawn::Faulty(fault));
        }
        _ => {}
    }
    for _ in 0..random.pick(&[1, 2, 3]) {
        let [any, end] = [random.number() >> random.below(64), random.pick(&ENDS)];
        event[random.below(form.numbers as u64) as usize] = random.pick(&[any, end]);
    }
    (event, Drawn::Flipped)
}
