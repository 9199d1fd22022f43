//! State memory and account memory side by side, lent to the accounted calls.

use second::account::{FIGURES, FIRM_ROW, NUMBERS};
use second::accounted;
use second::event::Event;
use second::memory;
use second::place;
use second::unit::{Away, Unit};

/// Both memories.
#[derive(Clone, Debug, PartialEq, Eq)]
pub struct Books {
    pub memory: Vec<u64>,
    pub account: Vec<u64>,
}

impl Books {
    /// The memory of an armed unit beside an account of zeros, each with a number behind it that no call may touch.
    pub fn of(unit: &Unit) -> Books {
        let mut memory = vec![0; place::NUMBERS + 1];
        memory::write(unit.armed.as_ref().unwrap(), &mut memory);
        let mut account = vec![0; NUMBERS + 1];
        (memory[place::NUMBERS], account[NUMBERS]) = (7, u64::MAX);
        Books { memory, account }
    }

    /// Books armed from the text, which is a good one.
    pub fn armed(text: &str) -> Books {
        Books::of(&super::armed(text))
    }

    /// Runs an event and gives its row.
    pub fn run(&mut self, event: Event) -> [u64; 5] {
        accounted::event(&mut self.memory, &mut self.account, event)
    }

    /// An order without reset on a root at time 0.
    pub fn order(&mut self, root: u64) -> [u64; 5] {
        self.run(Event::Order { time: 0, root, reset: 0 })
    }

    /// An offer on a root's unit 0 at time 0.
    pub fn offer(&mut self, root: u64, premium: u64, contracts: u64) -> [u64; 5] {
        self.run(Event::Offer { time: 0, root, unit: 0, premium, contracts })
    }

    /// A sending at time 0.
    pub fn send(&mut self, order: Away) -> [u64; 5] {
        self.run(Event::Send { time: 0, order })
    }

    /// A report at time 0.
    pub fn report(&mut self, identity: u64, contracts: u64) -> [u64; 5] {
        self.run(Event::Report { time: 0, identity, contracts })
    }

    /// The figures of a row.
    pub fn row(&self, row: usize) -> [u64; FIGURES] {
        std::array::from_fn(|figure| self.account[FIGURES * row + figure])
    }

    /// The figures of the firm.
    pub fn firm(&self) -> [u64; FIGURES] {
        self.row(FIRM_ROW)
    }

    /// Asserts that an event is refused and changes nothing.
    pub fn refused(&self, refusal: u64, event: Event) {
        let mut copy = self.clone();
        assert_eq!(copy.run(event), [refusal, 0, 0, 0, 0], "{event:?}");
        assert!(copy == *self, "{event:?}");
    }
}

/// One event of each kind on root 0 and identity 1 at time 0.
pub fn each_kind() -> [Event; 6] {
    let time = 0;
    [
        Event::Order { time, root: 0, reset: 0 },
        Event::Lockout { time, level: 0, root: 0 },
        Event::Offer { time, root: 0, unit: 0, premium: 1, contracts: 1 },
        Event::Send { time, order: super::order(2, 1, 1) },
        Event::Report { time, identity: 1, contracts: 1 },
        Event::Close { time, identity: 1 },
    ]
}
