//! The proved library and the second program side by side, on memory and accounts of their own each.

use std::fmt;
use std::panic::{catch_unwind, AssertUnwindSafe};

use second::account::NUMBERS as ACCOUNT;
use second::lent::{Lent, Row};

use crate::calls::{run_library, run_second};
use crate::running::Running;
use crate::scripts::{Kind, Step};
use crate::SIZE;

/// What the second program left after a call.
pub struct Left<'a> {
    pub second: &'a mut Lent,
    pub account: &'a mut [u64],
    pub row: &'a mut Row,
    pub room: &'a mut [u8],
}

/// Changes what the second program answered or left: a wrong version of it, for trying the comparison itself.
pub type Twist = fn(&Step, Left);

/// The second program as it is.
pub fn as_it_is(_: &Step, _: Left) {}

/// The most numbers that are lent here.
const MOST_LENT: u64 = 200_000;

/// Where the two differ after a step.
#[derive(Clone, Debug, PartialEq, Eq)]
pub enum Difference {
    Answer {
        library: Row,
        second: Row,
    },
    Memory {
        place: usize,
        library: u64,
        second: u64,
    },
    Account {
        place: usize,
        library: u64,
        second: u64,
    },
    Room {
        library: Vec<u8>,
        second: Vec<u8>,
    },
    /// A figure of the account is not what the list of events and answers makes it.
    Figure {
        place: usize,
        library: u64,
        computed: u64,
    },
    /// The second program did not come to an answer.
    Panic {
        library: Row,
    },
}

impl fmt::Display for Difference {
    fn fmt(&self, f: &mut fmt::Formatter) -> fmt::Result {
        match self {
            Difference::Answer { library, second } => write!(f, "the library answers {library:?}, the second program {second:?}"),
            Difference::Memory { place, library, second } => {
                write!(f, "in number {place} of the memory the library leaves {library}, the second program {second}")
            }
            Difference::Account { place, library, second } => {
                write!(f, "in number {place} of the account the library leaves {library}, the second program {second}")
            }
            Difference::Room { library, second } => {
                write!(f, "in the room the library leaves {}, the second program {}", library.escape_ascii(), second.escape_ascii())
            }
            Difference::Figure { place, library, computed } => {
                write!(f, "number {place} of the account is {library}, and by the list of events and answers {computed}")
            }
            Difference::Panic { library } => write!(f, "the library answers {library:?}, the second program panics"),
        }
    }
}

/// Both, on memory and accounts that were equal before the next step.
pub struct Pair {
    memory: Vec<u64>,
    second: Lent,
    account: Vec<u64>,
    second_account: Vec<u64>,
    /// How many numbers of the account are lent.
    account_length: usize,
    running: Option<Running>,
    /// How many events the lists had that the account was compared with.
    pub listed: u64,
    twist: Twist,
}

impl Pair {
    /// Memory of zeros for a state and an account, all of it lent.
    pub fn new(twist: Twist) -> Pair {
        Pair {
            memory: vec![0; SIZE],
            second: Lent::new(vec![0; SIZE]),
            account: vec![0; ACCOUNT],
            second_account: vec![0; ACCOUNT],
            account_length: ACCOUNT,
            running: None,
            listed: 0,
            twist,
        }
    }

    /// The second program.
    pub fn second(&mut self) -> &mut Lent {
        &mut self.second
    }

    /// All numbers of the account, and how many of them are lent.
    pub fn account(&self) -> (&[u64], usize) {
        (&self.second_account, self.account_length)
    }

    /// Runs a step on both, and gives the row that both answer.
    pub fn step(&mut self, step: &Step) -> Result<Row, Difference> {
        if !(step.accounted || step.asks()) {
            self.finish()?;
        }
        if !step.is_call() {
            self.change(step);
            return Ok([0; 5]);
        }
        if step.accounted && self.running.is_none() {
            self.running = Some(Running::new(&self.account, self.second.unit().armed.as_ref()));
        }
        let row = self.call(step)?;
        if let (Some(running), true, Some(event)) = (&mut self.running, step.accounted, step.event()) {
            running.push(event, row);
            if running.is_long() {
                self.finish()?;
            }
        }
        Ok(row)
    }

    /// Compares the account with the list of events and answers so far, and begins another.
    pub fn finish(&mut self) -> Result<(), Difference> {
        let Some(running) = self.running.take() else { return Ok(()) };
        self.listed += running.length();
        match running.difference(&self.account) {
            Some((place, computed)) => Err(Difference::Figure { place, library: self.account[place], computed }),
            None => Ok(()),
        }
    }

    /// Changes lengths or numbers from outside.
    fn change(&mut self, step: &Step) {
        let [first, number, ..] = step.numbers;
        let (length, place) = (first.min(MOST_LENT) as usize, first.min(MOST_LENT - 1) as usize);
        match step.kind {
            Kind::Length => {
                if length > self.memory.len() {
                    grow([&mut self.memory, self.second.numbers_mut()], length);
                }
                self.second.set_length(length);
            }
            Kind::Damage => {
                grow([&mut self.memory, self.second.numbers_mut()], place + 1);
                self.memory[place] = number;
                self.second.numbers_mut()[place] = number;
            }
            Kind::AccountLength => {
                grow([&mut self.account, &mut self.second_account], length);
                self.account_length = length;
            }
            _ => {
                grow([&mut self.account, &mut self.second_account], place + 1);
                self.account[place] = number;
                self.second_account[place] = number;
            }
        }
    }

    /// Runs a call on both.
    fn call(&mut self, step: &Step) -> Result<Row, Difference> {
        let mut rooms = [step.room(), step.room()];
        let [library_room, second_room] = &mut rooms;
        let (lent, lent_account) = (self.second.length(), self.account_length);
        let library = run_library(step, &mut self.memory[..lent], &mut self.account[..lent_account], library_room);
        let (second, account) = (&mut self.second, &mut self.second_account[..lent_account]);
        let answered = catch_unwind(AssertUnwindSafe(|| run_second(step, second, account, second_room)));
        let Ok(mut row) = answered else { return Err(Difference::Panic { library }) };
        (self.twist)(step, Left { second: &mut self.second, account: &mut self.second_account, row: &mut row, room: &mut rooms[1] });
        self.compare(library, row, rooms)
    }

    /// The row, if answers, rooms, the whole memories and the whole accounts agree.
    fn compare(&self, library: Row, second: Row, rooms: [Vec<u8>; 2]) -> Result<Row, Difference> {
        if library != second {
            return Err(Difference::Answer { library, second });
        }
        let [library_room, second_room] = rooms;
        if library_room != second_room {
            return Err(Difference::Room { library: library_room, second: second_room });
        }
        if let Some((place, library, second)) = first_other(&self.memory, self.second.numbers()) {
            return Err(Difference::Memory { place, library, second });
        }
        if let Some((place, library, second)) = first_other(&self.account, &self.second_account) {
            return Err(Difference::Account { place, library, second });
        }
        Ok(library)
    }
}

/// The first place at which two lists of as many numbers differ, and what stands there.
fn first_other(one: &[u64], other: &[u64]) -> Option<(usize, u64, u64)> {
    if one == other {
        return None;
    }
    let mut places = one.iter().zip(other).enumerate();
    places.find(|(_, (one, other))| one != other).map(|(place, (one, other))| (place, *one, *other))
}

/// Makes both at least so long; what is past the state or the account is no 0.
fn grow(both: [&mut Vec<u64>; 2], length: usize) {
    for numbers in both {
        if length > numbers.len() {
            let more = (numbers.len()..length).map(|place| !(place as u64));
            numbers.extend(more);
        }
    }
}

/// The place of the first step after which the two differ, and how.
pub fn first_difference(script: &[Step], twist: Twist) -> Option<(usize, Difference)> {
    let mut pair = Pair::new(twist);
    let found = script.iter().enumerate().find_map(|(place, step)| pair.step(step).err().map(|difference| (place, difference)));
    found.or_else(|| pair.finish().err().map(|difference| (script.len() - 1, difference)))
}
