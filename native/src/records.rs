//! Event records of both lengths: any calls on them against any others, on valid, faulty, damaged and arbitrary bytes and numbers.

mod calls;
mod draws;
pub mod forms;
pub mod rounds;
pub mod seen;
pub mod times;

use second::gen::Random;

pub use self::calls::{Calls, BY_HAND, LIBRARY, SECOND};
use self::draws::{some_bytes, some_event, Drawn};
use self::forms::{Event, Form, KIND, NEW, OLD, RESET, TIME};
use self::seen::{Call, Seen, Unfit, What, LONGEST};
use crate::Row;

/// A comparison: what is tried, what it is compared with, and what came up.
pub struct Comparison<'a> {
    tried: Calls<'a>,
    other: Calls<'a>,
    random: Random,
    pub seen: Seen,
}

/// A room of so many bytes, no two neighbours alike.
fn room(length: usize) -> Vec<u8> {
    (0..length).map(|place| place as u8 ^ 0xA5).collect()
}

/// Compares so many rounds of each call; gives what came up, or the first difference in words.
pub fn compare(rounds: u64, seed: u64, tried: Calls, other: Calls) -> Result<Seen, String> {
    let mut comparison = Comparison { tried, other, random: Random::new(seed), seen: Seen::default() };
    for _ in 0..rounds {
        for form in [&OLD, &NEW] {
            let (bytes, drawn) = some_bytes(&mut comparison.random, form);
            comparison.read(form, &bytes, drawn)?;
            comparison.moved(form, &bytes, drawn)?;
            let (event, drawn) = some_event(&mut comparison.random, form);
            comparison.write(form, event, drawn)?;
        }
    }
    Ok(comparison.seen)
}

/// Compares all calls that take bytes of a form on these; gives the first difference in words.
pub fn compare_bytes(bytes: &[u8], form: &Form, tried: Calls, other: Calls) -> Result<u64, String> {
    let mut comparison = Comparison { tried, other, random: Random::new(1), seen: Seen::default() };
    comparison.moved(form, bytes, Drawn::Flipped)?;
    comparison.read(form, bytes, Drawn::Flipped)
}

impl Comparison<'_> {
    /// Reads bytes on both; gives the refusal.
    fn read(&mut self, form: &Form, bytes: &[u8], drawn: Drawn) -> Result<u64, String> {
        let call = if form.bytes == NEW.bytes { Call::Read16 } else { Call::Read };
        let (tried, other) = (self.tried.read(form, bytes), self.other.read(form, bytes));
        self.seen.calls += 1;
        if tried != other {
            return Err(format!("{call:?} {bytes:02x?}: {tried:?}, and by the other {other:?}"));
        }
        let [refusal, event @ .., _, _] = tried;
        self.judge(call, drawn, refusal, bytes.len(), || format!("{bytes:02x?}"))?;
        if refusal == 0 {
            self.seen.see_done(call, form, &event);
            let mut again = room(form.bytes);
            let row = self.tried.write(form, event, &mut again);
            self.seen.calls += 1;
            if row != [0; 5] || again != bytes {
                return Err(format!("{call:?} {bytes:02x?}: written again {row:?} {again:02x?}"));
            }
            self.seen.see(call, What::Back);
        }
        Ok(refusal)
    }

    /// Is the refusal what this way of drawing asks for? Counts it.
    fn judge(&mut self, call: Call, drawn: Drawn, refusal: u64, length: usize, words: impl Fn() -> String) -> Result<(), String> {
        let is_wrong = match drawn {
            Drawn::Valid => refusal == 16,
            Drawn::Faulty(_) | Drawn::OtherLength => refusal != 16,
            Drawn::Flipped => false,
        };
        if is_wrong {
            return Err(format!("{call:?} {}: both answer {refusal}", words()));
        }
        match drawn {
            Drawn::Faulty(fault) => self.seen.see(call, What::Faulty(fault)),
            Drawn::OtherLength if length <= LONGEST => self.seen.see(call, What::Length(length)),
            Drawn::Flipped if refusal == 16 => self.seen.see(call, What::Flipped),
            _ => {}
        }
        Ok(())
    }

    /// Writes an event on both.
    fn write(&mut self, form: &Form, event: Event, drawn: Drawn) -> Result<(), String> {
        let call = if form.bytes == NEW.bytes { Call::Write16 } else { Call::Write };
        let (tried, other) = (self.tried, self.other);
        let (row, written) = self.in_rooms(call, &|room| tried.write(form, event, room), &|room| other.write(form, event, room))?;
        self.judge(call, drawn, row[0], form.bytes, || format!("{event:?}"))?;
        if row[0] == 0 {
            self.seen.see_done(call, form, &event);
            let again = tried.read(form, &written);
            self.seen.calls += 1;
            if again[0] != 0 || again[1..11] != event {
                return Err(format!("{call:?} {event:?}: read again {again:?}"));
            }
            self.seen.see(call, What::Back);
        }
        Ok(())
    }

    /// Moves bytes on both into the other form.
    fn moved(&mut self, form: &Form, bytes: &[u8], drawn: Drawn) -> Result<(), String> {
        let (call, to) = if form.bytes == NEW.bytes { (Call::Narrow, &OLD) } else { (Call::Widen, &NEW) };
        let (tried, other) = (self.tried, self.other);
        let (row, written) = self.in_rooms(call, &|room| tried.moved(form, bytes, room), &|room| other.moved(form, bytes, room))?;
        self.judge(call, drawn, row[0], bytes.len(), || format!("{bytes:02x?}"))?;
        match row[0] {
            20 => {
                let read = self.other.read(form, bytes);
                self.see_unfit(read[1 + KIND], read[1 + TIME], read[1 + RESET])?;
            }
            0 => {
                let [_, event @ .., _, _] = tried.read(&OLD, if call == Call::Narrow { &written } else { bytes });
                self.seen.see_done(call, &OLD, &event);
                let mut back = room(form.bytes);
                let row = tried.moved(to, &written, &mut back);
                self.seen.calls += 2;
                if row != [0; 5] || back != bytes {
                    return Err(format!("{call:?} {bytes:02x?}: moved back {row:?} {back:02x?}"));
                }
                self.seen.see(call, What::Back);
            }
            _ => {}
        }
        Ok(())
    }

    /// Counts why a record does not fit the old form.
    fn see_unfit(&mut self, kind: u64, time: u64, reset: u64) -> Result<(), String> {
        let reasons = [(Unfit::Kind, kind > 2), (Unfit::Time, time % 1_000 != 0), (Unfit::Reset, reset > 3)];
        let found: Vec<Unfit> = reasons.into_iter().filter(|(_, holds)| *holds).map(|(reason, _)| reason).collect();
        let what = match found[..] {
            [] => return Err(format!("both answer 20 for kind {kind}, time {time}, reset {reset}")),
            [reason] => What::Unfit(reason),
            _ => What::UnfitInMore,
        };
        self.seen.see(Call::Narrow, what);
        Ok(())
    }

    /// Runs a writer on two equal rooms, of any length up to the longest, and gives its row and what it wrote.
    fn in_rooms(
        &mut self,
        call: Call,
        tried: &dyn Fn(&mut [u8]) -> Row,
        other: &dyn Fn(&mut [u8]) -> Row,
    ) -> Result<(Row, Vec<u8>), String> {
        let bytes = call.written().unwrap_or(0);
        let any = self.random.below(LONGEST as u64 + 1) as usize;
        let length = self.random.pick(&[any, bytes, bytes + 1]);
        let before = room(length);
        let (mut tried_room, mut other_room) = (before.clone(), before.clone());
        let (row, other_row) = (tried(&mut tried_room), other(&mut other_room));
        self.seen.calls += 1;
        if (row, &tried_room) != (other_row, &other_room) {
            return Err(format!("{call:?} in {length} bytes: {row:?} {tried_room:02x?}, and by the other {other_row:?} {other_room:02x?}"));
        }
        let written = if row[0] == 0 { bytes } else { 0 };
        if tried_room.get(written..) != before.get(written..) || row[0] == 0 && length < bytes || row[0] == 1 && length >= bytes {
            return Err(format!("{call:?} in {length} bytes: {row:?} {tried_room:02x?}"));
        }
        match row[0] {
            0 | 1 => self.seen.see(call, What::Room(length)),
            16 if length < bytes => self.seen.see(call, What::FaultyAndShort),
            20 if length < bytes => self.seen.see(call, What::UnfitAndShort),
            _ => {}
        }
        if row[0] == 0 && length > bytes {
            self.seen.see(call, What::Past);
        }
        tried_room.truncate(written);
        Ok((row, tried_room))
    }
}
