//! The accounted calls against the independent second program's, on days that it draws: rows, memory and account after each, and the typed calls beside them.
use mbrumzheg::{
    raw, Account, Adopted, Closing, Contracts, Event, Identity, Level, Offer, Premium, Refusal, Report, Reports, Reset, Root, Sending,
    Time, Unit, UnitOfRoot, ACCOUNT_SIZE,
};
use second::event::Event as SecondEvent;
use second::unit::Away;
use second::{accounted, gen, lent::Lent};
use std::collections::BTreeMap;

/// The accounted call of an event, by rows.
fn by_rows(memory: &mut [u64], account: &mut [u64], event: &SecondEvent) -> [u64; 5] {
    match *event {
        SecondEvent::Order { time, root, reset } => raw::accounted_order(memory, account, time, root, reset),
        SecondEvent::Lockout { time, level, root } => raw::accounted_lockout(memory, account, time, level, root),
        SecondEvent::Offer { time, root, unit, premium, contracts } => {
            raw::accounted_offer(memory, account, time, root, unit, premium, contracts)
        }
        SecondEvent::Send { time, order: Away { identity, root, unit, premium, contracts, reports } } => {
            raw::accounted_send(memory, account, time, root, unit, premium, contracts, identity, reports)
        }
        SecondEvent::Report { time, identity, contracts } => raw::accounted_report(memory, account, time, identity, contracts),
        SecondEvent::Close { time, identity } => raw::accounted_close(memory, account, time, identity),
    }
}

/// The same event by its types, where its numbers have values.
fn typed(event: &SecondEvent) -> Result<Event, Refusal> {
    Ok(match *event {
        SecondEvent::Order { time, root, reset } => {
            Event::Order { time: Time::from_ms(time)?, root: Root::new(root)?, reset: Reset::from_number(reset)? }
        }
        SecondEvent::Lockout { time, level: 0, root } => {
            Event::Lockout { time: Time::from_ms(time)?, level: Level::Root(Root::new(root)?) }
        }
        SecondEvent::Lockout { time, level: 1, root: 0 } => Event::Lockout { time: Time::from_ms(time)?, level: Level::Firm },
        SecondEvent::Lockout { .. } => return Err(Refusal::Unknown),
        SecondEvent::Offer { time, root, unit, premium, contracts } => Event::Offer(Offer {
            time: Time::from_ms(time)?,
            root: Root::new(root)?,
            unit: UnitOfRoot::from_number(unit)?,
            premium: Premium::from_ten_thousandths(premium)?,
            contracts: Contracts::new(contracts)?,
        }),
        SecondEvent::Send { time, order } => Event::Send(Sending {
            time: Time::from_ms(time)?,
            root: Root::new(order.root)?,
            unit: UnitOfRoot::from_number(order.unit)?,
            premium: Premium::from_ten_thousandths(order.premium)?,
            contracts: Contracts::new(order.contracts)?,
            identity: Identity::new(order.identity)?,
            reports: Reports::new(order.reports)?,
        }),
        SecondEvent::Report { time, identity, contracts } => {
            Event::Report(Report { time: Time::from_ms(time)?, identity: Identity::new(identity)?, contracts: Contracts::new(contracts)? })
        }
        SecondEvent::Close { time, identity } => Event::Close(Closing { time: Time::from_ms(time)?, identity: Identity::new(identity)? }),
    })
}

/// The typed call on copies of memory and account: its row, and what it leaves.
fn by_types(memory: &[u64], account: &[u64], event: Event) -> Option<([u64; 5], Vec<u64>, Vec<u64>)> {
    let Ok(Adopted::Armed(mut unit)) = Unit::adopt(memory.to_vec()) else { return None };
    let mut kept = Account::from_numbers(account.get(..ACCOUNT_SIZE)?.try_into().ok()?);
    let row = match unit.accounted_answer(&mut kept, event) {
        Ok(answer) => [0, answer.verdict.number(), answer.grant, u64::from(answer.root_trip), u64::from(answer.firm_trip)],
        Err(refusal) => [refusal.number(), 0, 0, 0, 0],
    };
    let all = [&kept.numbers()[..], &account[ACCOUNT_SIZE..]].concat();
    Some((row, unit.into_memory(), all))
}

#[test]
fn accounts_are_the_second_programs() {
    let (mut refusals, mut compared) = (BTreeMap::<u64, usize>::new(), 0);
    for seed in 0..300 {
        let day = gen::account_day(seed, 120);
        let mut memory = vec![0; mbrumzheg::SIZE];
        assert_eq!(raw::arm(&mut memory, &day.text)[0], 0, "seed {seed}");
        let mut second = Lent::new(vec![0; mbrumzheg::SIZE]);
        second.arm(&day.text);
        let (mut account, mut other) = (day.account.clone(), day.account.clone());
        for (place, event) in day.calls.iter().enumerate().filter_map(|(place, call)| Some((place, call.event()?))) {
            if place < day.begins {
                // before the account begins: an account of zeros changes no answer
                let mut unused = [0; ACCOUNT_SIZE];
                by_rows(&mut memory, &mut unused, &event);
                second.accounted(&mut [0; ACCOUNT_SIZE], event);
                continue;
            }
            let beside = typed(&event).ok().and_then(|event| by_types(&memory, &account, event));
            let row = by_rows(&mut memory, &mut account, &event);
            assert_eq!(row, second.accounted(&mut other, event), "seed {seed}, place {place}");
            assert_eq!((&memory[..], &account), (second.numbers(), &other), "seed {seed}, place {place}");
            *refusals.entry(row[0]).or_default() += 1;
            if let Some(beside) = beside {
                assert_eq!(beside, (row, memory.clone(), account.clone()), "seed {seed}, place {place}");
                compared += 1;
            }
        }
    }
    for refusal in [0, 1, 2, 12, 13, 14, 18, 21] {
        assert!(refusals.get(&refusal).is_some_and(|met| *met > 5), "refusal {refusal}: {refusals:?}");
    }
    assert!(compared > 5_000, "{compared} typed calls");
}

#[test]
fn the_second_programs_calls_alone_agree_with_its_lent_ones() {
    let mut memory = vec![0; mbrumzheg::SIZE];
    raw::arm(&mut memory, b"ABCD,abs_vol,XYZ,100");
    let (mut one, mut other) = (vec![0; ACCOUNT_SIZE], vec![0; ACCOUNT_SIZE]);
    let mut copy = memory.clone();
    assert_eq!(
        accounted::offer(&mut copy, &mut one, 0, 0, 0, 70_000, 120),
        raw::accounted_offer(&mut memory, &mut other, 0, 0, 0, 70_000, 120)
    );
    assert_eq!((copy, one), (memory, other));
}
