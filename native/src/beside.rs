//! The hand-written calls beside the pair: on every step of a day they have to answer as the library does and leave the same memory.

use crate::calls::{run_hand, run_library};
use crate::pair::{as_it_is, Pair};
use crate::scripts::Step;
use crate::steps::Day;
use crate::tally::Tally;
use crate::Row;

/// Memory and account before a call or after it, and how much of each is lent.
struct Memory {
    numbers: Vec<u64>,
    length: usize,
    account: Vec<u64>,
    account_length: usize,
}

impl Memory {
    /// As the two programs have it.
    fn of(pair: &mut Pair) -> Memory {
        let (account, account_length) = pair.account();
        let account = account.to_vec();
        let second = pair.second();
        Memory { numbers: second.numbers().to_vec(), length: second.length(), account, account_length }
    }
}

/// What the hand-written calls left.
pub struct Left<'a> {
    pub numbers: &'a mut [u64],
    pub account: &'a mut [u64],
    pub row: &'a mut Row,
    pub room: &'a mut [u8],
}

/// Changes what the hand-written calls answered or left: a wrong version of them, for trying the check itself.
pub type Slip = fn(&Step, Left);

/// The hand-written calls as they are.
pub fn no_slip(_: &Step, _: Left) {}

/// Runs so many days from a seed; gives what came up, or the first step on which the hand-written calls differ.
pub fn days(count: u64, seed: u64, slip: Slip) -> Result<Tally, String> {
    let mut tally = Tally::default();
    for day in 0..count {
        run_day(seed.wrapping_add(day), slip, &mut tally)?;
    }
    Ok(tally)
}

/// Runs the steps of one day.
fn run_day(seed: u64, slip: Slip, tally: &mut Tally) -> Result<(), String> {
    let (mut day, mut pair) = (Day::new(seed), Pair::new(as_it_is));
    while let Some(step) = day.next(&mut pair) {
        tally.before(&step, &mut pair);
        let before = Memory::of(&mut pair);
        let row = pair.step(&step).map_err(|difference| format!("{step}: {difference}"))?;
        if step.is_call() {
            compare(&step, row, before, &mut pair, slip)?;
        }
        tally.after(&step, row, &mut pair);
    }
    pair.finish().map_err(|difference| difference.to_string())?;
    tally.listed += pair.listed;
    Ok(())
}

/// Runs a call by hand on the memory as it was, and compares the answer, every number of memory and account after, and the room.
fn compare(step: &Step, row: Row, mut memory: Memory, after: &mut Pair, slip: Slip) -> Result<(), String> {
    let mut rooms = [step.room(), step.room()];
    let [own_room, library_room] = &mut rooms;
    if !library_room.is_empty() {
        run_library(step, &mut memory.numbers.clone()[..memory.length], &mut [], library_room);
    }
    let mut own = run_hand(step, &mut memory.numbers[..memory.length], &mut memory.account[..memory.account_length], own_room);
    slip(step, Left { numbers: &mut memory.numbers, account: &mut memory.account, row: &mut own, room: own_room });
    if own != row {
        return Err(format!("{step}: the library answers {row:?}, the hand-written call {own:?}"));
    }
    let first_other = |own: &[u64], library: &[u64]| own.iter().zip(library).position(|(own, library)| own != library);
    if let Some(place) = first_other(&memory.numbers, after.second().numbers()) {
        return Err(format!("{step}: the hand-written call leaves another number {place}: {}", memory.numbers[place]));
    }
    if let Some(place) = first_other(&memory.account, after.account().0) {
        return Err(format!("{step}: the hand-written call leaves another number {place} of the account: {}", memory.account[place]));
    }
    if rooms[0] != rooms[1] {
        let [own_room, library_room] = rooms.map(|room| room.escape_ascii().to_string());
        return Err(format!("{step}: in the room the library leaves {library_room}, the hand-written call {own_room}"));
    }
    Ok(())
}
