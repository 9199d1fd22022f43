//! A call run on the proved library, by hand, and on the second program over lent memory or on its own state.

use second::account::Account;
use second::lent::Lent;
use second::unit::{self, Unit};

use crate::hand;
use crate::scripts::{Kind, Step};
use crate::Row;

/// Runs a call on the library.
pub fn run_library(step: &Step, m: &mut [u64], account: &mut [u64], room: &mut [u8]) -> Row {
    let [a, b, c, d, e, f, g] = step.numbers;
    match (step.kind, step.accounted) {
        (Kind::Arm, _) => crate::arm(m, &step.profile),
        (Kind::Clear, _) => crate::clear(m),
        (Kind::Order, false) => crate::order(m, a, b, c),
        (Kind::Order, true) => crate::accounted_order(m, account, a, b, c),
        (Kind::Lockout, false) => crate::lockout(m, a, b, c),
        (Kind::Lockout, true) => crate::accounted_lockout(m, account, a, b, c),
        (Kind::Offer, false) => crate::offer(m, a, b, c, d, e),
        (Kind::Offer, true) => crate::accounted_offer(m, account, a, b, c, d, e),
        (Kind::Send, false) => crate::send(m, a, b, c, d, e, f, g),
        (Kind::Send, true) => crate::accounted_send(m, account, a, b, c, d, e, f, g),
        (Kind::Report, false) => crate::report(m, a, b, c),
        (Kind::Report, true) => crate::accounted_report(m, account, a, b, c),
        (Kind::Close, false) => crate::close(m, a, b),
        (Kind::Close, true) => crate::accounted_close(m, account, a, b),
        (Kind::Remaining, _) => crate::remaining(m, a, b, c),
        (Kind::Status, _) => crate::status(m),
        (Kind::Text, _) => crate::text(a, room),
        (Kind::Profile, _) => crate::profile(m, room),
        (Kind::Length | Kind::Damage | Kind::AccountLength | Kind::AccountDamage, _) => unreachable!("no call"),
    }
}

/// Runs a call by hand.
pub fn run_hand(step: &Step, m: &mut [u64], account: &mut [u64], room: &mut [u8]) -> Row {
    let [a, b, c, d, e, f, g] = step.numbers;
    match (step.kind, step.accounted) {
        (Kind::Arm, _) => hand::arm(m, &step.profile),
        (Kind::Clear, _) => hand::clear(m),
        (Kind::Order, false) => hand::order(m, a, b, c),
        (Kind::Order, true) => hand::accounted_order(m, account, a, b, c),
        (Kind::Lockout, false) => hand::lockout(m, a, b, c),
        (Kind::Lockout, true) => hand::accounted_lockout(m, account, a, b, c),
        (Kind::Offer, false) => hand::offer(m, a, b, c, d, e),
        (Kind::Offer, true) => hand::accounted_offer(m, account, a, b, c, d, e),
        (Kind::Send, false) => hand::send(m, a, b, c, d, e, f, g),
        (Kind::Send, true) => hand::accounted_send(m, account, a, b, c, d, e, f, g),
        (Kind::Report, false) => hand::report(m, a, b, c),
        (Kind::Report, true) => hand::accounted_report(m, account, a, b, c),
        (Kind::Close, false) => hand::close(m, a, b),
        (Kind::Close, true) => hand::accounted_close(m, account, a, b),
        (Kind::Remaining, _) => hand::remaining(m, a, b, c),
        (Kind::Status, _) => hand::status(m),
        (Kind::Text, _) => hand::text(a, room),
        (Kind::Profile, _) => hand::profile(m, room),
        (Kind::Length | Kind::Damage | Kind::AccountLength | Kind::AccountDamage, _) => unreachable!("no call"),
    }
}

/// The row of an answer of fewer numbers.
fn row(numbers: &[u64]) -> Row {
    let mut row = [0; 5];
    row[..numbers.len()].copy_from_slice(numbers);
    row
}

/// Runs a call on the second program over lent memory.
pub fn run_second(step: &Step, second: &mut Lent, account: &mut [u64], room: &mut [u8]) -> Row {
    let [a, b, c, ..] = step.numbers;
    match (step.kind, step.event()) {
        (_, Some(event)) if step.accounted => second.accounted(account, event),
        (_, Some(event)) => second.change(|unit| event.run(unit).numbers()),
        (Kind::Arm, _) => second.arm(&step.profile),
        (Kind::Clear, _) => second.clear(),
        (Kind::Remaining, _) => second.ask(|unit| row(&unit.remaining(a, b, c).numbers())),
        (Kind::Status, _) => second.ask(|unit| unit.status().numbers()),
        (Kind::Text, _) => row(&unit::text(a, room).numbers()),
        (Kind::Profile, _) => second.ask(|unit| row(&unit.profile(room).numbers())),
        (kind, _) => unreachable!("no call: {kind:?}"),
    }
}

/// Runs a call on the second program's own state and account.
pub fn run_unit(step: &Step, unit: &mut Unit, account: &mut Account, room: &mut [u8]) -> Row {
    let [a, b, c, ..] = step.numbers;
    match (step.kind, step.event()) {
        (_, Some(event)) if step.accounted => account.run(unit, event).numbers(),
        (_, Some(event)) => event.run(unit).numbers(),
        (Kind::Arm, _) => unit.arm(&step.profile).numbers(),
        (Kind::Clear, _) => row(&[unit.clear().refusal]),
        (Kind::Remaining, _) => row(&unit.remaining(a, b, c).numbers()),
        (Kind::Status, _) => unit.status().numbers(),
        (Kind::Text, _) => row(&unit::text(a, room).numbers()),
        (Kind::Profile, _) => row(&unit.profile(room).numbers()),
        (kind, _) => unreachable!("no call: {kind:?}"),
    }
}
