//! The least time of several things that take turns.

use std::hint::black_box;
use std::time::{Duration, Instant};

use second::account::Account;
use second::unit::Unit;

use crate::calls::{run_hand, run_library, run_unit};
use crate::lines::{no_account, Line};
use crate::scripts::{Kind, Step};
use crate::SIZE;

/// How many calls a round has: its time is their average.
pub const CALLS: u32 = 50;
/// The fewest rounds of a line in one turn.
pub const ROUNDS: u32 = 12;

/// One plain pass that reads the state's numbers.
pub fn pass(m: &[u64]) -> u64 {
    m[..SIZE].iter().fold(0, |any, number| any | number)
}

/// The least nanoseconds of each on a line, without those of the clock.
#[derive(Clone, Copy)]
pub struct Times {
    pub pass: f64,
    pub library: f64,
    pub hand: f64,
    pub second: f64,
    /// The hand-written Status on the same state.
    pub hand_test: f64,
}

/// The average nanoseconds of a call, each after something that is not timed.
fn round<T>(kept: &mut T, before: impl Fn(&mut T), mut call: impl FnMut(&mut T)) -> f64 {
    let mut spent = Duration::ZERO;
    for _ in 0..CALLS {
        before(kept);
        let start = Instant::now();
        call(black_box(kept));
        spent += start.elapsed();
    }
    spent.as_nanos() as f64 / f64::from(CALLS)
}

/// The least rounds of a line so far: of nothing, of a plain pass, of the library, of the hand-written call, of the second program and of the
/// hand-written test.
#[derive(Clone, Copy)]
pub struct Least([f64; 6]);

impl Default for Least {
    /// Nothing is measured yet.
    fn default() -> Least {
        Least([f64::MAX; 6])
    }
}

impl Least {
    /// Measures a line for so long: rounds take turns, so that what disturbs one disturbs all.
    pub fn measure(&mut self, line: &Line, time: Duration) {
        let mut lent = Lent { numbers: line.state.clone(), account: no_account(), room: line.call.room() };
        let mut second = (line.unit.clone(), Account::default());
        let (mut rounds, start) = (0, Instant::now());
        while rounds < ROUNDS || start.elapsed() < time {
            let turn = turn(line, &mut lent, &mut second);
            self.0.iter_mut().zip(turn).for_each(|(least, time)| *least = least.min(time));
            rounds += 1;
        }
    }

    /// The least times without those of the clock.
    pub fn times(&self) -> Times {
        let [none, pass, library, hand, second, hand_test] = self.0;
        Times { pass: pass - none, library: library - none, hand: hand - none, second: second - none, hand_test: hand_test - none }
    }
}

/// What is lent to a call.
struct Lent {
    numbers: Vec<u64>,
    account: Vec<u64>,
    room: Vec<u8>,
}

/// One round of each.
fn turn(line: &Line, lent: &mut Lent, second: &mut (Unit, Account)) -> [f64; 6] {
    let restore = |lent: &mut Lent| {
        lent.numbers.copy_from_slice(&line.state);
        lent.account.fill(0);
    };
    let status = Step::new(Kind::Status, &[]);
    [
        round(lent, restore, |_| {}),
        round(lent, restore, |lent| {
            black_box(pass(&lent.numbers));
        }),
        round(lent, restore, |lent| {
            black_box(run_library(black_box(&line.call), &mut lent.numbers, &mut lent.account, &mut lent.room));
        }),
        round(lent, restore, |lent| {
            black_box(run_hand(black_box(&line.call), &mut lent.numbers, &mut lent.account, &mut lent.room));
        }),
        round(
            second,
            |(unit, account)| {
                unit.clone_from(&line.unit);
                *account = Account::default();
            },
            |(unit, account)| {
                black_box(run_unit(black_box(&line.call), unit, account, black_box(&mut line.call.room())));
            },
        ),
        round(lent, restore, |lent| {
            black_box(run_hand(black_box(&status), &mut lent.numbers, &mut [], &mut []));
        }),
    ]
}
