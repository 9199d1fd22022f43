//! Request 9 of document 02: what each event adds to the day's account. A row: accepted, rejected, fills, contracts, notional, cuts, trips, away.

mod common;

use common::books::Books;
use common::{armed, order};
use second::accounted;
use second::event::Event;
use second::unit::Away;

/// A dollar in ten-thousandths.
const DOLLAR: u64 = 10_000;

#[test]
fn where_the_account_stands() {
    use second::account::*;
    assert_eq!((NUMBERS, FIGURES, FIRM_ROW, MOST_FIGURE), (520, 8, 64, 10u64.pow(18)));
    assert_eq!([ACCEPTED, REJECTED, FILLS, CONTRACTS, NOTIONAL, CUTS, TRIPS, AWAY], [0, 1, 2, 3, 4, 5, 6, 7]);
    let mut books = Books::armed("A,abs_vol,X,9\nA,abs_vol,Y,9");
    assert_eq!(books.order(1), [0; 5]);
    let ones: Vec<usize> = (0..520).filter(|place| books.account[*place] != 0).collect();
    assert_eq!(ones, [8, 512]);
    assert_eq!(books.account[520], u64::MAX, "what stands behind it is untouched");
}

#[test]
fn five_at_3_and_seven_at_2_make_29_dollars() {
    let mut books = Books::armed("A,abs_vol,X,1000\nA,abs_vol,Y,1000");
    assert_eq!(books.offer(0, 3 * DOLLAR, 5), [0, 0, 5, 0, 0]);
    assert_eq!(books.offer(1, 2 * DOLLAR, 7), [0, 0, 7, 0, 0]);
    assert_eq!(books.row(0), [0, 0, 1, 5, 150_000, 0, 0, 0]);
    assert_eq!(books.row(1), [0, 0, 1, 7, 140_000, 0, 0, 0]);
    assert_eq!(books.firm(), [0, 0, 2, 12, 290_000, 0, 0, 0]);
}

#[test]
fn orders_by_their_verdict() {
    let mut books = Books::armed("A,abs_vol,X,10\nA,abs_vol,Y,10");
    assert_eq!(books.order(0), [0; 5]);
    assert_eq!(books.run(Event::Lockout { time: 0, level: 0, root: 0 }), [0; 5]);
    assert_eq!(books.order(0), [0, 2, 0, 0, 0]);
    assert_eq!(books.order(1), [0; 5]);
    assert_eq!(books.run(Event::Lockout { time: 0, level: 1, root: 0 }), [0; 5]);
    assert_eq!(books.order(1), [0, 1, 0, 0, 0]);
    assert_eq!(books.run(Event::Order { time: 0, root: 0, reset: 6 }), [0; 5], "the reset comes first");
    assert_eq!(books.row(0), [2, 1, 0, 0, 0, 0, 0, 0]);
    assert_eq!(books.row(1), [1, 1, 0, 0, 0, 0, 0, 0]);
    assert_eq!(books.firm(), [3, 2, 0, 0, 0, 0, 0, 0]);
}

#[test]
fn a_cut_is_an_offer_at_verdict_0_granted_less() {
    let mut books = Books::armed("A,rate_vol,X,10,1000\nA,rate_vol,,15,1000,T");
    assert_eq!(books.offer(0, DOLLAR, 4), [0, 0, 4, 0, 0], "whole");
    assert_eq!(books.offer(0, DOLLAR, 7), [0, 0, 6, 1, 0], "a part: a fill and a cut");
    assert_eq!(books.offer(0, DOLLAR, 7), [0, 2, 0, 0, 0], "locked out: nowhere");
    assert_eq!(books.run(Event::Order { time: 0, root: 0, reset: 4 }), [0; 5]);
    assert_eq!(books.offer(0, DOLLAR, 7), [0, 0, 0, 1, 0], "grant 0: a cut and no fill");
    assert_eq!(books.row(0), [1, 0, 2, 10, 10 * DOLLAR, 2, 2, 0]);
    assert_eq!(books.firm(), [1, 0, 2, 10, 10 * DOLLAR, 2, 0, 0]);
}

#[test]
fn trips_of_the_root_and_of_the_firm() {
    let mut books = Books::armed("A,abs_vol,X,10\nA,abs_vol,Y,10\nA,abs_vol,,10,,T");
    assert_eq!(books.offer(0, DOLLAR, 9), [0, 0, 9, 0, 0]);
    assert_eq!(books.offer(1, DOLLAR, 1), [0, 0, 1, 0, 1], "the firm's alone, by its limit reached and no cut");
    assert_eq!(books.run(Event::Order { time: 0, root: 0, reset: 2 }), [0; 5]);
    assert_eq!(books.offer(1, DOLLAR, 11), [0, 0, 9, 1, 0]);
    assert_eq!(books.run(Event::Order { time: 0, root: 1, reset: 1 }), [0; 5]);
    assert_eq!(books.offer(1, DOLLAR, 11), [0, 0, 1, 0, 1]);
    assert_eq!(books.row(0), [1, 0, 1, 9, 9 * DOLLAR, 0, 0, 0]);
    assert_eq!(books.row(1), [1, 0, 3, 11, 11 * DOLLAR, 2, 1, 0]);
    assert_eq!(books.firm(), [2, 0, 4, 20, 20 * DOLLAR, 2, 2, 0]);
}

#[test]
fn sendings_are_orders_and_reports_have_their_own_column() {
    let mut books = Books::armed("A,abs_vol,X,10\nA,abs_vol,,12,,T\nA,abs_vol,Y,10");
    assert_eq!(books.send(order(1, 20, 16)), [0; 5]);
    assert_eq!(books.send(order(1, 20, 16)), [18, 0, 0, 0, 0]);
    assert_eq!(books.report(1, 9), [0, 0, 9, 0, 0]);
    assert_eq!(books.report(1, 1), [0, 0, 1, 1, 0]);
    assert_eq!(books.send(order(2, 20, 16)), [0, 2, 0, 0, 0]);
    assert_eq!(books.report(1, 2), [0, 0, 2, 1, 1], "a level tripped before trips again");
    assert_eq!(books.report(1, 9), [19, 0, 0, 0, 0]);
    assert_eq!(books.run(Event::Close { time: 0, identity: 1 }), [0; 5]);
    assert_eq!(books.send(Away { root: 2, ..order(3, 1, 1) }), [13, 0, 0, 0, 0]);
    assert_eq!(books.send(Away { root: 1, ..order(3, 1, 1) }), [0, 1, 0, 0, 0]);
    assert_eq!(books.row(0), [1, 1, 0, 0, 0, 0, 2, 3]);
    assert_eq!(books.row(1), [0, 1, 0, 0, 0, 0, 0, 0]);
    assert_eq!(books.firm(), [1, 2, 0, 0, 0, 0, 1, 3]);
}

#[test]
fn a_report_counts_for_the_root_of_its_order_though_the_account_began_later() {
    let mut unit = armed("A,abs_vol,X,10\nA,abs_vol,Y,10");
    assert_eq!(unit.send(0, Away { root: 1, ..order(7, 5, 2) }).refusal, 0);
    let mut books = Books::of(&unit);
    assert_eq!(books.report(7, 2), [0, 0, 2, 0, 0]);
    assert_eq!(books.run(Event::Close { time: 0, identity: 7 }), [0; 5]);
    assert_eq!(books.send(order(7, 5, 2)), [0; 5], "the identity again, for another root");
    assert_eq!(books.report(7, 2), [0, 0, 2, 0, 0]);
    assert_eq!(books.row(0), [1, 0, 0, 0, 0, 0, 0, 1]);
    assert_eq!(books.row(1), [0, 0, 0, 0, 0, 0, 0, 1]);
    assert_eq!(books.firm(), [1, 0, 0, 0, 0, 0, 0, 2]);
}

#[test]
fn refused_events_lockouts_and_closings_count_nowhere() {
    let mut books = Books::armed("A,abs_vol,X,10");
    assert_eq!(books.send(order(1, 5, 2)), [0; 5]);
    let account = books.account.clone();
    assert_eq!(books.order(1), [13, 0, 0, 0, 0]);
    assert_eq!(books.offer(0, 0, 1), [14, 0, 0, 0, 0]);
    assert_eq!(books.report(2, 1), [18, 0, 0, 0, 0]);
    assert_eq!(books.run(Event::Lockout { time: 0, level: 1, root: 0 }), [0; 5]);
    assert_eq!(books.run(Event::Close { time: 0, identity: 1 }), [0; 5]);
    assert_eq!(books.offer(0, 1, 1), [0, 1, 0, 0, 0]);
    assert_eq!(books.account, account);
}

#[test]
fn firm_rules_alone_have_no_root() {
    let mut books = Books::armed("A,abs_vol,,10,,T");
    assert_eq!(books.order(0), [13, 0, 0, 0, 0]);
    assert_eq!(books.offer(0, 1, 1), [13, 0, 0, 0, 0]);
    assert_eq!(books.run(Event::Lockout { time: 5, level: 1, root: 0 }), [0; 5]);
    assert_eq!(books.account[..520], [0; 520]);
}

#[test]
fn each_call_by_its_name() {
    let mut books = Books::armed("A,abs_vol,X,10");
    let (memory, account) = (&mut books.memory, &mut books.account);
    assert_eq!(accounted::order(memory, account, 1, 0, 0), [0; 5]);
    assert_eq!(accounted::offer(memory, account, 2, 0, 0, DOLLAR, 3), [0, 0, 3, 0, 0]);
    assert_eq!(accounted::send(memory, account, 3, order(9, 8, 2)), [0; 5]);
    assert_eq!(accounted::report(memory, account, 4, 9, 7), [0, 0, 7, 1, 0]);
    assert_eq!(accounted::lockout(memory, account, 5, 0, 0), [0; 5]);
    assert_eq!(accounted::close(memory, account, 6, 9), [0; 5]);
    assert_eq!(books.row(0), [2, 0, 1, 3, 30_000, 0, 1, 1]);
    assert_eq!(books.firm(), [2, 0, 1, 3, 30_000, 0, 0, 1]);
    let mut unit = armed("A,abs_vol,X,10");
    assert_eq!(unit.order(1, 0, 0).refusal, 0);
    assert_eq!(unit.offer(2, 0, 0, DOLLAR, 3).refusal, 0);
    assert_eq!(unit.send(3, order(9, 8, 2)).refusal, 0);
    assert_eq!(unit.report(4, 9, 7).refusal, 0);
    assert_eq!(unit.lockout(5, 0, 0).refusal, 0);
    assert_eq!(unit.close(6, 9).refusal, 0);
    assert_eq!(books.memory, Books::of(&unit).memory, "the state is that of the plain calls");
}
