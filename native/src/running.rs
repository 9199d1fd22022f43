//! The running account against figures that are computed from the list of events and answers.

use second::account::NUMBERS;
use second::event::Event;
use second::figures::Day;
use second::unit::{Armed, Away, EventAnswer, Unit};

use crate::Row;

/// The longest list that is kept before it is compared.
const LONGEST: usize = 300;

/// Events and answers since the account was last changed by anything else, how it stood then, and the register that it began beside.
pub struct Running {
    start: Vec<u64>,
    began: Vec<Away>,
    list: Vec<(Event, EventAnswer)>,
}

impl Running {
    /// An empty list, beside an account and a state if there is one.
    pub fn new(account: &[u64], armed: Option<&Armed>) -> Running {
        Running { start: account[..NUMBERS].to_vec(), began: armed.map_or(Vec::new(), |armed| armed.away.clone()), list: Vec::new() }
    }

    /// Takes an event and its answer.
    pub fn push(&mut self, event: Event, [refusal, verdict, grant, root_trip, firm_trip]: Row) {
        self.list.push((event, EventAnswer { refusal, verdict, grant, root_trip, firm_trip }));
    }

    /// How many events the list has.
    pub fn length(&self) -> u64 {
        self.list.len() as u64
    }

    /// Is the list as long as it may be?
    pub fn is_long(&self) -> bool {
        self.list.len() >= LONGEST
    }

    /// The first figure in which an account differs from what it began with and the list: its place, the figure that is computed.
    pub fn difference(&self, account: &[u64]) -> Option<(usize, u64)> {
        let computed = Day { began: &self.began, list: &self.list }.figures();
        let expected = self.start.iter().zip(computed).map(|(start, figure)| start.wrapping_add(figure));
        expected.enumerate().find(|(place, figure)| account[*place] != *figure)
    }
}

/// What an event on a unit would be answered, and what it would add to the account's numbers.
pub fn foreseen(unit: &Unit, event: Event) -> (EventAnswer, Vec<u64>) {
    let began = unit.armed.as_ref().map_or(Vec::new(), |armed| armed.away.clone());
    let answer = event.run(&mut unit.clone());
    (answer, Day { began: &began, list: &[(event, answer)] }.figures())
}
