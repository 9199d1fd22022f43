//! Days that are accounted: a profile, the account that the day begins with, and the calls.

use super::call::Call;
use super::maker::Maker;
use super::profiles::{firm_profile, profile, valid_profile};
use super::random::Random;
use crate::account::{AWAY, CONTRACTS, FIGURES, FIRM_ROW, MOST_FIGURE, NOTIONAL, NUMBERS};
use crate::lent::Lent;
use crate::place;
use crate::{MOST_CONTRACTS, MOST_PREMIUM};

/// A day that is accounted.
#[derive(Clone, Debug, PartialEq, Eq)]
pub struct AccountDay {
    /// The profile that the day begins with, a good one.
    pub text: Vec<u8>,
    /// The account that it begins with: of any length, with any figures.
    pub account: Vec<u64>,
    /// How many calls come before the account begins.
    pub begins: usize,
    /// The calls; from where the account begins, those with an event are accounted.
    pub calls: Vec<Call>,
}

/// A day of so many calls that follow what the account lets pass.
pub fn account_day(seed: u64, n: usize) -> AccountDay {
    let mut random = Random::new(seed ^ 0x41_6363_6F75_6E74);
    let text = if random.once_in(12) { firm_profile(seed) } else { valid_profile(seed) };
    let mut lent = Lent::new(vec![0; place::NUMBERS]);
    let roots = lent.arm(&text)[4];
    let account = account(&mut random, roots);
    let begins = random.pick(&[0, 0, n / 4]);
    let mut maker = Maker::beside(seed, n);
    maker.sends = random.once_in(4);
    let mut running = account.clone();
    let next = |place: usize| {
        let call = maker.next_on(lent.unit());
        follow(call, &mut lent, (place >= begins).then_some(&mut running));
        call
    };
    let calls = (0..n).map(next).collect();
    AccountDay { text, account, begins, calls }
}

/// Runs a call that may change the state, accounted if there is an account.
fn follow(call: Call, lent: &mut Lent, account: Option<&mut Vec<u64>>) {
    match (call, call.event(), account) {
        (Call::Arm { seed }, ..) => lent.arm(&profile(seed)),
        (Call::ArmValid { seed }, ..) => lent.arm(&valid_profile(seed)),
        (Call::Clear, ..) => lent.clear(),
        (_, Some(event), Some(account)) => lent.accounted(account, event),
        (_, Some(event), None) => lent.change(|unit| event.run(unit).numbers()),
        _ => [0; 5],
    };
}

/// An account: zeros, any figures, some near the most, some above it, or a short one; what stands behind it may be anything.
fn account(random: &mut Random, roots: u64) -> Vec<u64> {
    let mut numbers = vec![0; NUMBERS];
    match random.below(12) {
        0..=2 => {}
        3 => numbers.iter_mut().for_each(|figure| *figure = random.between(0, MOST_FIGURE)),
        4..=9 => put_near(random, &mut numbers, roots),
        10 => {
            let figure = random.below(NUMBERS as u64) as usize;
            numbers[figure] = random.pick(&[MOST_FIGURE + 1, u64::MAX]);
        }
        _ => numbers.truncate(random.pick(&[0, FIGURES, NUMBERS - FIGURES, NUMBERS - 1])),
    }
    if numbers.len() == NUMBERS && random.once_in(3) {
        numbers.extend([1, MOST_FIGURE + 1, u64::MAX]);
    }
    numbers
}

/// Puts figures of a few roots or the firm near the most, each as far from it as some events bring.
fn put_near(random: &mut Random, numbers: &mut [u64], roots: u64) {
    let only = random.below(FIGURES as u64 + 4) as usize;
    for _ in 0..random.pick(&[1, 2, 4, 30]) {
        let root = random.below(roots.clamp(1, 64)) as usize;
        let row = random.pick(&[root, root, FIRM_ROW]);
        let any = random.below(FIGURES as u64) as usize;
        let figure = if only <= AWAY { only } else { any };
        numbers[FIGURES * row + figure] = MOST_FIGURE - distance(random, figure);
    }
}

/// How far from the most a figure may be so that a day passes it.
fn distance(random: &mut Random, figure: usize) -> u64 {
    let one = match figure {
        CONTRACTS => random.pick(&[1, 50, 1_000, MOST_CONTRACTS]),
        NOTIONAL => random.pick(&[1, 70_000, 1_000 * 10_000, MOST_PREMIUM * MOST_CONTRACTS]),
        _ => 1,
    };
    let any = random.between(0, 5 * one);
    random.pick(&[0, one, one - 1, any, any, 20 * one])
}
