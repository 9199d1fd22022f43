//! The accounted calls over lent numbers: state memory and account memory together.

use crate::account::{self, Account};
use crate::event::Event;
use crate::lent::{refused, Row};
use crate::memory::{self, Held};
use crate::place;
use crate::unit::{Away, Unit};

/// Order, accounted.
pub fn order(memory: &mut [u64], account: &mut [u64], time: u64, root: u64, reset: u64) -> Row {
    event(memory, account, Event::Order { time, root, reset })
}

/// Lockout, accounted.
pub fn lockout(memory: &mut [u64], account: &mut [u64], time: u64, level: u64, root: u64) -> Row {
    event(memory, account, Event::Lockout { time, level, root })
}

/// Offer, accounted.
pub fn offer(memory: &mut [u64], account: &mut [u64], time: u64, root: u64, unit: u64, premium: u64, contracts: u64) -> Row {
    event(memory, account, Event::Offer { time, root, unit, premium, contracts })
}

/// Send, accounted.
pub fn send(memory: &mut [u64], account: &mut [u64], time: u64, order: Away) -> Row {
    event(memory, account, Event::Send { time, order })
}

/// Report, accounted.
pub fn report(memory: &mut [u64], account: &mut [u64], time: u64, identity: u64, contracts: u64) -> Row {
    event(memory, account, Event::Report { time, identity, contracts })
}

/// Close, accounted.
pub fn close(memory: &mut [u64], account: &mut [u64], time: u64, identity: u64) -> Row {
    event(memory, account, Event::Close { time, identity })
}

/// Any event, accounted: refusals 1, 4 and 2 by both memories, then the event's own, and 21 last.
pub fn event(memory: &mut [u64], account: &mut [u64], event: Event) -> Row {
    if memory.len() < place::NUMBERS || account.len() < account::NUMBERS {
        return refused(1);
    }
    let (armed, kept) = match (memory::read(&memory[..place::NUMBERS]), Account::read(account)) {
        (Held::NotArmed, _) => return refused(4),
        (Held::Unsound, _) | (_, None) => return refused(2),
        (Held::Sound(armed), Some(kept)) => (armed, kept),
    };
    let mut unit = Unit { armed: Some(armed) };
    let row = run(&mut unit, kept, account, event);
    if let (0, Some(armed)) = (row[0], &unit.armed) {
        memory::write(armed, memory);
    }
    row
}

/// Runs an event on a unit beside what its account holds, and writes the account.
pub(crate) fn run(unit: &mut Unit, mut kept: Account, account: &mut [u64], event: Event) -> Row {
    let row = kept.run(unit, event).numbers();
    kept.write(account);
    row
}
