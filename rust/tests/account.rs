//! The day's account: each figure against one that is counted here from the events and their answers, and what is refused.
mod common;

use common::{armed, contracts, offer, root, time, ArmedUnit};
use mbrumzheg::{
    raw, Account, Answer, Closing, Column, Event, Identity, Level, Offer, Premium, Refusal, Report, Reports, Reset, Root, Sending, Unit,
    UnitOfRoot, Verdict, ACCOUNT_SIZE, SIZE,
};
use std::collections::HashMap;

const MOST: u64 = 1_000_000_000_000_000_000;
const PROFILE: &str = "AB,abs_vol,X,150\nAB,rate_vol,Y,60,1000\nAB,abs_count,Z,5,,,P,F\nAB,rate_ntnl,,100,500,T\n";

fn identity(number: u64) -> Identity {
    Identity::new(number).expect("an identity")
}

/// Numbers that look random and are the same on every run.
fn below(seed: &mut u64, end: u64) -> u64 {
    *seed = seed.wrapping_mul(6_364_136_223_846_793_005).wrapping_add(1_442_695_040_888_963_407);
    (*seed >> 24) % end
}

/// An event, now and then one that is refused.
fn event(seed: &mut u64, ms: u64) -> Event {
    let (time, on) = (time(ms), root(below(seed, 4)));
    let unit = UnitOfRoot::ALL[below(seed, 4) as usize];
    let premium = Premium::from_ten_thousandths(1 + below(seed, 30_000)).expect("a premium");
    let (some, of) = (contracts(1 + below(seed, 60)), identity(below(seed, 4)));
    match below(seed, 12) {
        0..=2 => Event::Order { time, root: on, reset: Reset::ALL[below(seed, 7) as usize] },
        3 => Event::Lockout { time, level: if below(seed, 2) == 0 { Level::Firm } else { Level::Root(on) } },
        4 | 5 => {
            let reports = Reports::new(1 + below(seed, 3)).expect("reports");
            Event::Send(Sending { time, root: on, unit, premium, contracts: some, identity: of, reports })
        }
        6 | 7 => Event::Report(Report { time, identity: of, contracts: some }),
        8 if below(seed, 3) == 0 => Event::Close(Closing { time, identity: of }),
        _ => Event::Offer(Offer { time, root: on, unit, premium, contracts: some }),
    }
}

/// The table as it is counted here: eight figures by root, the firm's under 64.
#[derive(Default)]
struct Counted {
    rows: HashMap<u64, [u64; 8]>,
    roots: HashMap<u64, u64>,
}

impl Counted {
    fn add(&mut self, root: u64, column: Column, amount: u64) {
        for row in [root, 64] {
            self.rows.entry(row).or_default()[column.number() as usize] += amount;
        }
    }

    fn trips(&mut self, root: u64, answer: &Answer) {
        for (row, tripped) in [(root, answer.root_trip), (64, answer.firm_trip)] {
            self.rows.entry(row).or_default()[Column::Trips.number() as usize] += u64::from(tripped);
        }
    }

    fn take(&mut self, event: &Event, answer: &Answer) {
        let passes = answer.verdict == Verdict::Free;
        let judged = if passes { Column::Accepted } else { Column::Rejected };
        match event {
            Event::Order { root, .. } => self.add(root.number(), judged, 1),
            Event::Send(sending) => {
                self.add(sending.root.number(), judged, 1);
                if passes {
                    self.roots.insert(sending.identity.number(), sending.root.number());
                }
            }
            Event::Offer(offer) if passes => {
                let (root, grant) = (offer.root.number(), answer.grant);
                self.add(root, Column::Fills, u64::from(grant > 0));
                self.add(root, Column::Contracts, grant);
                self.add(root, Column::Notional, grant * offer.premium.ten_thousandths());
                self.add(root, Column::Cuts, u64::from(grant < offer.contracts.count()));
                self.trips(root, answer);
            }
            Event::Report(report) => {
                let root = self.roots[&report.identity.number()];
                self.add(root, Column::AwayReports, 1);
                self.trips(root, answer);
            }
            Event::Offer(_) | Event::Lockout { .. } | Event::Close(_) => {}
        }
    }
}

#[test]
fn every_figure_is_what_the_events_and_their_answers_make_it() {
    let mut met = [0; 8];
    for mut seed in 0..60 {
        let (mut unit, mut plain) = (armed(PROFILE), armed(PROFILE));
        let (mut account, mut counted) = (Account::new(), Counted::default());
        let mut ms = 0;
        for _ in 0..400 {
            ms = (ms + below(&mut seed, 30)).saturating_sub(u64::from(below(&mut seed, 40) == 0) * 50);
            let event = event(&mut seed, ms);
            let answer = unit.accounted_answer(&mut account, event);
            assert_eq!(answer, plain.answer(event), "an account changes no answer");
            let _ = answer.map(|answer| counted.take(&event, &answer));
        }
        assert_eq!(unit.memory(), plain.memory(), "and nothing in the state");
        for (row, (of, figures)) in account.table().enumerate() {
            assert_eq!(of.map_or(64, Root::number), row as u64);
            let wanted = counted.rows.get(&(row as u64)).copied().unwrap_or_default();
            assert_eq!(figures.numbers(), wanted, "row {row}");
            assert_eq!(Column::ALL.map(|column| figures.of(column)), wanted);
        }
        // all but trips add up over the roots
        let sums = Column::ALL.map(|column| (0..64).map(|n| account.root(root(n)).of(column)).sum::<u64>());
        let firm = account.firm().numbers();
        for column in Column::ALL.into_iter().filter(|column| *column != Column::Trips) {
            assert_eq!(sums[column.number() as usize], firm[column.number() as usize], "{column}");
        }
        met.iter_mut().zip(firm).for_each(|(met, figure)| *met += figure);
    }
    assert!(met.iter().all(|figure| *figure > 100), "{met:?}");
}

/// A unit with an account that has one figure of the firm set.
fn with(column: Column, figure: u64) -> (ArmedUnit, Account) {
    let mut numbers = [0; ACCOUNT_SIZE];
    numbers[512 + column.number() as usize] = figure;
    (armed("ABCD,abs_vol,XYZ,100"), Account::from_numbers(numbers))
}

#[test]
fn an_event_that_would_pass_the_end_is_refused_and_changes_nothing() {
    let sending = |premium: u64| Sending {
        time: time(1),
        root: root(0),
        unit: UnitOfRoot::CallsFront,
        premium: Premium::from_ten_thousandths(premium).expect("a premium"),
        contracts: contracts(5),
        identity: identity(7),
        reports: Reports::new(1).expect("reports"),
    };
    let order = Event::Order { time: time(1), root: root(0), reset: Reset::Both };
    let fill = Event::Offer(offer(1, UnitOfRoot::CallsFront, 7, 60));
    let cut = Event::Offer(offer(1, UnitOfRoot::CallsFront, 7, 101));
    for (column, event, adds) in [
        (Column::Accepted, order, 1),
        (Column::Accepted, Event::Send(sending(1)), 1),
        (Column::Fills, fill, 1),
        (Column::Contracts, fill, 60),
        (Column::Notional, fill, 60 * 70_000),
        (Column::Cuts, cut, 1),
    ] {
        let (mut unit, mut account) = with(column, MOST - adds + 1);
        let before = (unit.memory().to_vec(), account.clone());
        assert_eq!(unit.accounted_answer(&mut account, event), Err(Refusal::AccountFull), "{column}");
        assert_eq!((unit.memory().to_vec(), account), before, "{column}");
        let (mut unit, mut account) = with(column, MOST - adds);
        assert!(unit.accounted_answer(&mut account, event).is_ok(), "{column}");
        assert_eq!(account.firm().of(column), MOST);
        // what counts nowhere is not refused, and neither is what is refused for another reason
        assert_eq!(unit.accounted_lockout(&mut account, time(2), Level::Firm), Ok(Verdict::Free));
        assert_eq!(unit.accounted_order(&mut account, time(0), root(0), Reset::None), Err(Refusal::BadTime));
        let (mut unit, mut account) = with(column, MOST + 1);
        assert_eq!(unit.accounted_answer(&mut account, event), Err(Refusal::Unsound), "{column}");
    }
    let (mut unit, mut account) = with(Column::AwayReports, MOST);
    assert_eq!(unit.accounted_send(&mut account, sending(70_000)), Ok(Verdict::Free));
    let report = Report { time: time(1), identity: identity(7), contracts: contracts(5) };
    assert_eq!(unit.accounted_report(&mut account, report), Err(Refusal::AccountFull));
    assert_eq!(unit.report(report).map(|answer| answer.grant), Ok(5), "its report is still open");
    assert_eq!(unit.accounted_close(&mut account, Closing { time: time(1), identity: identity(7) }), Ok(Verdict::Free));
}

#[test]
fn refusals_come_in_their_order() {
    let (mut memory, mut account) = (vec![0; SIZE], vec![0; ACCOUNT_SIZE + 1]);
    account[ACCOUNT_SIZE] = 9;
    assert_eq!(raw::accounted_order(&mut memory[1..], &mut account, 0, 0, 0)[0], 1);
    assert_eq!(raw::accounted_order(&mut memory, &mut account[2..], 0, 0, 0)[0], 1);
    account[63 * 8 + 7] = MOST + 1;
    assert_eq!(raw::accounted_order(&mut memory, &mut account, 0, 0, 0)[0], 4, "not armed comes before the account");
    assert_eq!(raw::arm(&mut memory, b"ABCD,abs_vol,XYZ,100")[0], 0);
    let every = |memory: &mut [u64], account: &mut [u64]| {
        [
            raw::accounted_order(memory, account, 86_400_000, 0, 0)[0],
            raw::accounted_lockout(memory, account, 86_400_000, 0, 0)[0],
            raw::accounted_offer(memory, account, 86_400_000, 0, 0, 1, 1)[0],
            raw::accounted_send(memory, account, 86_400_000, 0, 0, 1, 1, 1, 1)[0],
            raw::accounted_report(memory, account, 86_400_000, 0, 1)[0],
            raw::accounted_close(memory, account, 86_400_000, 0)[0],
        ]
    };
    assert_eq!(every(&mut memory, &mut account), [2; 6], "a figure of a row that no root has counts too");
    account[63 * 8 + 7] = MOST;
    assert_eq!(every(&mut memory, &mut account), [12; 6]);
    assert_eq!(raw::accounted_order(&mut memory, &mut account, 5, 0, 0), [0; 5]);
    assert_eq!((account[0], account[512], account[ACCOUNT_SIZE]), (1, 1, 9), "what is lent beyond the account is untouched");
}

#[test]
fn an_account_goes_on_where_a_unit_begins_again() {
    let (mut unit, mut account) = (armed("ABCD,abs_vol,XYZ,100"), Account::default());
    assert_eq!(unit.accounted_order(&mut account, time(5), root(0), Reset::None), Ok(Verdict::Free));
    let mut unit = Unit::cleared(unit.into_memory()).expect("long enough").arm("ABCD,abs_vol,XYZ,100").expect("accepted");
    let mut account = Account::from_numbers(*account.numbers());
    assert_eq!(unit.accounted_order(&mut account, time(0), root(0), Reset::None), Ok(Verdict::Free));
    assert_eq!((account.root(root(0)).of(Column::Accepted), account.firm().of(Column::Accepted)), (2, 2));
}
