//! The day's account, by name: each sentence of the request on both programs, which must agree in the answer, the whole memory and the whole account.

use native::both::Both;
use native::pair::{as_it_is, Pair};
use native::running::Running;
use native::scripts::{Kind, Step};
use second::account::*;
use second::event::Event;
use second::gen::account_day;

/// The most that a figure may be.
const MOST: u64 = MOST_FIGURE;

#[test]
fn orders_count_by_their_verdict() {
    let mut both = Both::armed("A,abs_vol,X,5\\nA,abs_vol,Y,5");
    both.says("accounted order 0 0 0", &[0]).says("accounted order 0 1 3", &[0]).says("accounted lockout 0 0 1", &[0]);
    both.says("accounted order 0 1 0", &[0, 2]).says("accounted lockout 0 1 0", &[0]).says("accounted order 0 0 0", &[0, 1]);
    // a reset comes first
    both.says("accounted order 0 0 2", &[0]);
    assert_eq!(both.figures(0), [2, 1, 0, 0, 0, 0, 0, 0]);
    assert_eq!(both.figures(1), [1, 1, 0, 0, 0, 0, 0, 0]);
    assert_eq!(both.figures(FIRM_ROW), [3, 2, 0, 0, 0, 0, 0, 0]);
}

#[test]
fn offers_count_as_fills_cuts_and_trips() {
    let mut both = Both::armed("A,abs_vol,X,10\\nA,rate_vol,,12,1000,T\\nA,abs_vol,Y,50");
    both.says("accounted offer 0 0 0 70000 4", &[0, 0, 4]).says("accounted offer 0 0 0 10000 9", &[0, 0, 6, 1]);
    assert_eq!(both.figures(0), [0, 0, 2, 10, 340_000, 1, 1, 0]);
    // locked out: nowhere
    both.says("accounted offer 0 0 0 10000 9", &[0, 2]);
    assert_eq!(both.figures(0), [0, 0, 2, 10, 340_000, 1, 1, 0]);
    both.says("accounted offer 0 1 0 1 5", &[0, 0, 2, 0, 1]).says("order 0 1 5", &[0]);
    // a grant of 0 is a cut and no fill; it trips the firm again
    both.says("accounted offer 0 1 0 1 5", &[0, 0, 0, 0, 1]);
    assert_eq!(both.figures(1), [0, 0, 1, 2, 2, 2, 0, 0]);
    assert_eq!(both.figures(FIRM_ROW), [0, 0, 3, 12, 340_002, 3, 2, 0]);
}

#[test]
fn sendings_count_as_orders_and_reports_for_themselves() {
    let mut both = Both::armed("A,abs_vol,X,10\\nA,abs_vol,Y,10\\nA,abs_count,,3,,T");
    both.says("accounted send 0 1 2 70000 20 9 3", &[0]).says("accounted report 1 9 9", &[0, 0, 9]);
    both.says("accounted report 1 9 1", &[0, 0, 1, 1]).says("accounted send 1 1 2 70000 20 8 1", &[0, 2]);
    both.says("accounted report 2 9 1", &[0, 0, 1, 1, 1]).says("accounted send 2 0 0 1 1 7 1", &[0, 1]).says("accounted close 2 9", &[0]);
    assert_eq!(both.figures(0), [0, 1, 0, 0, 0, 0, 0, 0]);
    assert_eq!(both.figures(1), [1, 1, 0, 0, 0, 0, 2, 3]);
    assert_eq!(both.figures(FIRM_ROW), [1, 2, 0, 0, 0, 0, 1, 3]);
    // an order that was sent before the account began
    both.says("order 3 0 5", &[0]).says("send 3 0 0 1 20 5 3", &[0]).says("accounted report 3 5 1", &[0, 0, 1, 0, 1]);
    assert_eq!(both.figures(0), [0, 1, 0, 0, 0, 0, 0, 1]);
}

#[test]
fn refusals_in_their_order() {
    let mut both = Both::default();
    // 1 by either memory, then 4, then 2 by either, then what the plain call gives
    both.run("account-length 519");
    both.refuses(1, &["accounted order 0 0 0", "accounted close 0 0"]).run("account-length 520");
    both.put_figure(63, AWAY, MOST + 1).refuses(4, &["accounted order 0 0 0"]).run("arm A,abs_vol,X,5");
    both.refuses(2, &["accounted order 90000000 0 0", "accounted lockout 0 9 0", "accounted report 0 0 1", "accounted close 0 0"]);
    both.put_figure(63, AWAY, MOST).says("accounted order 5 0 0", &[0]).refuses(12, &["accounted order 4 0 0"]);
    both.put(second::place::CLOCK, u64::MAX).refuses(2, &["accounted order 4 0 0"]).put(second::place::CLOCK, 5);
    both.put_figure(0, ACCEPTED, MOST).refuses(13, &["accounted order 5 1 0", "accounted send 5 0 4 0 0 0 0"]);
    both.refuses(14, &["accounted send 5 0 0 0 1 0 1"]).refuses(18, &["accounted report 5 0 1"]).refuses(21, &["accounted order 5 0 0"]);
    both.refuses(21, &["accounted order 86399999 0 0", "accounted send 9 0 0 1 1 0 1"]).says("order 5 0 0", &[0]);
    // what adds nothing is not refused
    both.says("accounted lockout 6 0 0", &[0]).says("accounted order 6 0 0", &[0, 2]).says("accounted offer 6 0 0 1 1", &[0, 2]);
    for row in [0, 63, FIRM_ROW] {
        both.put_figure(row, CUTS, MOST + 1).refuses(2, &["accounted offer 6 0 0 1 1"]).put_figure(row, CUTS, 0);
    }
}

#[test]
fn the_log_is_full_before_a_figure_is() {
    let mut both = Both::armed("A,rate_vol,X,1000000000,1000");
    for _ in 0..512 {
        both.says("accounted offer 0 0 0 1 1", &[0, 0, 1]);
    }
    both.put_figure(0, FILLS, MOST)
        .put_figure(0, ACCEPTED, MOST)
        .refuses(15, &["accounted offer 0 0 0 1 1", "accounted send 0 0 0 1 1 1 1"]);
    both.refuses(21, &["accounted offer 1000 0 0 1 1", "accounted send 1000 0 0 1 1 1 1"]);
}

#[test]
fn each_figure_may_reach_the_most_and_not_pass_it() {
    let profile = "A,abs_vol,X,10\\nA,abs_vol,,10,,T\\nA,abs_vol,Y,5";
    // before the call, the call, and what it adds
    let calls: [(&[&str], &str, [u64; 8]); 5] = [
        (&[], "accounted order 0 0 0", [1, 0, 0, 0, 0, 0, 0, 0]),
        (&["lockout 0 0 0"], "accounted order 0 0 0", [0, 1, 0, 0, 0, 0, 0, 0]),
        (&[], "accounted offer 0 0 0 70000 12", [0, 0, 1, 10, 700_000, 1, 1, 0]),
        (&["offer 0 0 0 70000 10", "order 0 0 6"], "accounted offer 0 0 0 70000 12", [0, 0, 0, 0, 0, 1, 1, 0]),
        (&["send 0 0 0 70000 12 1 1"], "accounted report 0 1 10", [0, 0, 0, 0, 0, 0, 1, 1]),
    ];
    for (before, call, added) in calls {
        for (row, figure) in [0, FIRM_ROW].into_iter().flat_map(|row| (0..FIGURES).map(move |figure| (row, figure))) {
            let mut both = Both::armed(profile);
            before.iter().for_each(|line| assert_eq!(both.run(line)[0], 0, "{line}"));
            if added[figure] > 0 {
                both.put_figure(row, figure, MOST - added[figure] + 1).refuses(21, &[call]);
            }
            both.put_figure(row, figure, MOST - added[figure]);
            assert_eq!(both.run(call)[0], 0, "{call}");
            assert_eq!(both.figures(row)[figure], MOST, "{call}");
            let other = FIRM_ROW - row;
            assert_eq!(both.figures(other), added, "{call}");
        }
    }
}

#[test]
fn arming_and_clearing_leave_the_account() {
    let mut both = Both::armed("A,abs_vol,X,10");
    both.says("accounted offer 0 0 0 1 7", &[0, 0, 7]).says("clear", &[0]).refuses(4, &["accounted offer 0 0 0 1 7"]);
    both.run("arm B,abs_vol,Q,10");
    both.says("accounted offer 0 0 0 2 2", &[0, 0, 2]);
    assert_eq!(both.figures(0), [0, 0, 2, 9, 11, 0, 0, 0]);
    // without roots no order or offer counts, and a lockout of the firm is not refused
    let mut firm = Both::armed("A,abs_vol,,10,,T");
    firm.refuses(13, &["accounted offer 0 0 0 1 7", "accounted order 0 0 0"]).says("accounted lockout 0 1 0", &[0]);
    assert_eq!(firm.figures(FIRM_ROW), [0; 8]);
}

/// Runs a step on both, which must agree.
fn agree(pair: &mut Pair, step: Step) -> [u64; 5] {
    pair.step(&step).unwrap_or_else(|difference| panic!("after {step}: {difference}"))
}

#[test]
fn each_single_bit_of_an_account_is_judged_alike() {
    let mut pair = Pair::new(as_it_is);
    agree(&mut pair, Step::arm(b"A,abs_vol,X,1000000".to_vec()));
    let mut refused = [0; 22];
    for place in 0..NUMBERS as u64 {
        for bit in 0..64 {
            agree(&mut pair, Step::new(Kind::AccountDamage, &[place, 1 << bit]));
            refused[agree(&mut pair, Step::new(Kind::Order, &[0, 0, 0]).accounted())[0] as usize] += 1;
            agree(&mut pair, Step::new(Kind::AccountDamage, &[place, 0]));
        }
    }
    // 2^60 to 2^63 are above 10^18
    assert_eq!((refused[0], refused[2]), (60 * NUMBERS, 4 * NUMBERS));
}

#[test]
fn the_second_programs_own_days_are_accounted_alike() {
    let (mut seen, mut summed) = ([0; 22], 0);
    for seed in 0..400 {
        let day = account_day(seed, if seed % 10 == 0 { 1_500 } else { 150 });
        let mut pair = Pair::new(as_it_is);
        agree(&mut pair, Step::new(Kind::AccountLength, &[day.account.len() as u64]));
        for (place, figure) in day.account.iter().enumerate() {
            agree(&mut pair, Step::new(Kind::AccountDamage, &[place as u64, *figure]));
        }
        agree(&mut pair, Step::arm(day.text));
        for (place, call) in day.calls.into_iter().enumerate() {
            let step = if place < day.begins { call.into() } else { Step::from(call).accounted() };
            let row = agree(&mut pair, step.clone());
            seen[row[0] as usize] += u64::from(step.accounted);
        }
        pair.finish().unwrap_or_else(|difference| panic!("at the end of day {seed}: {difference}"));
        if day.account.len() >= NUMBERS && day.account.iter().all(|figure| *figure == 0) {
            summed += 1;
            the_firm_is_the_sum_of_the_roots(pair.account().0);
        }
    }
    println!("{seen:?}, {summed} days begun at zeros");
    assert!([0, 1, 2, 4, 12, 13, 14, 17, 18, 19, 21].iter().all(|refusal| seen[*refusal] > 0) && summed > 50, "{seen:?}, {summed}");
}

#[test]
fn a_figure_that_the_list_does_not_make_is_found() {
    let mut running = Running::new(&[0; NUMBERS], None);
    running.push(Event::Order { time: 0, root: 3, reset: 0 }, [0, 2, 0, 0, 0]);
    running.push(Event::Order { time: 0, root: 3, reset: 0 }, [12, 0, 0, 0, 0]);
    let mut account = vec![0; NUMBERS];
    assert_eq!(running.difference(&account), Some((FIGURES * 3 + REJECTED, 1)));
    account[FIGURES * 3 + REJECTED] = 1;
    assert_eq!(running.difference(&account), Some((FIGURES * FIRM_ROW + REJECTED, 1)));
    account[FIGURES * FIRM_ROW + REJECTED] = 1;
    assert_eq!(running.difference(&account), None);
    account[NUMBERS - 1] = 1;
    assert_eq!(running.difference(&account), Some((NUMBERS - 1, 0)));
}

/// All figures but trips add up over the roots.
fn the_firm_is_the_sum_of_the_roots(account: &[u64]) {
    for figure in (0..FIGURES).filter(|figure| *figure != TRIPS) {
        let of_roots: u64 = (0..FIRM_ROW).map(|row| account[FIGURES * row + figure]).sum();
        assert_eq!(account[FIGURES * FIRM_ROW + figure], of_roots, "figure {figure}");
    }
}
