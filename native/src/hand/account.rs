//! The calls that keep the day's account beside the state.

use super::away::{closed, reported, sent};
use super::counted::Offer;
use super::map::*;
use super::{locked_out, offered, ordered, row, state_mut};
use crate::Row;

/// The figures of a row, the firm's row after those of the roots, and how many numbers that makes.
const FIGURES: usize = 8;
const FIRM_ROW: usize = MOST_ROOTS;
const SIZE: usize = FIGURES * (FIRM_ROW + 1);
type Account = [u64; SIZE];

/// The most that a figure may be.
const MOST_FIGURE: u64 = MOST_TOTAL;
/// Figures of so few bits cannot pass the most by one event, which adds no more than the notional of the dearest fill.
const LOW_BITS: u32 = 59;
const _: () = assert!((1 << LOW_BITS) + MOST_PREMIUM * MOST_CONTRACTS <= MOST_FIGURE);

/// What an accepted event adds, beside its root.
enum Added {
    Nothing,
    /// An order or a sending at a verdict.
    Order(u64),
    /// An offer that is not locked out: premium, contracts, and its answer.
    Offer(u64, u64, [u64; 4]),
    /// A report, and its answer.
    Report([u64; 4]),
}

/// An answer, the root that it is about and what it adds.
type Accounted = ([u64; 4], u64, Added);

/// Has every figure so few bits that no event can make it pass the most?
#[inline(never)]
fn are_low(account: &Account) -> bool {
    account.iter().fold(0, |any, figure| any | figure) >> LOW_BITS == 0
}

/// Adds what an event adds to a row, with the trip of the row's level; whether its figures are then at most what they may be.
#[inline]
fn add(figures: &mut [u64], added: &Added, trip: usize) -> bool {
    let mut put = |place: usize, more: u64| {
        figures[place] += more;
        figures[place] <= MOST_FIGURE
    };
    match added {
        Added::Nothing => true,
        Added::Order(verdict) => put(usize::from(*verdict != 0), 1),
        Added::Offer(premium, contracts, answer) => {
            let grant = answer[1];
            let fill = put(2, u64::from(grant > 0)) & put(3, grant) & put(4, premium * grant);
            fill & put(5, u64::from(grant < *contracts)) & put(6, answer[trip])
        }
        Added::Report(answer) => put(6, answer[trip]) & put(7, 1),
    }
}

/// Adds what an event adds to the rows of its root and of the firm; whether all figures are then at most what they may be.
#[inline]
fn add_to_both(account: &mut Account, root: u64, added: &Added) -> bool {
    let (roots, firm) = account.split_at_mut(FIGURES * FIRM_ROW);
    let own = &mut roots[FIGURES * (root as usize & 63)..][..FIGURES];
    add(own, added, 2) & add(&mut firm[..FIGURES], added, 3)
}

/// Runs a call on a state and an account.
#[inline]
fn keep(m: &mut [u64], account: &mut [u64], call: impl Fn(&mut State) -> Result<Accounted, u64>) -> Row {
    let (Ok(m), Some(account)) = (state_mut(m), account.first_chunk_mut::<SIZE>()) else { return row(Err(1)) };
    if !are_low(account) {
        return row(keep_near_the_most(m, account, call));
    }
    row(call(m).map(|(answer, root, added)| {
        add_to_both(account, root, &added);
        answer
    }))
}

/// The same where a figure may be near the most: on copies, which are kept if none passes it.
#[cold]
#[inline(never)]
fn keep_near_the_most(m: &mut State, account: &mut Account, call: impl Fn(&mut State) -> Result<Accounted, u64>) -> Result<[u64; 4], u64> {
    if m[MARK] == 0 {
        return Err(4);
    }
    if account.iter().any(|figure| *figure > MOST_FIGURE) {
        return Err(2);
    }
    let (mut state, mut figures) = (*m, *account);
    let (answer, root, added) = call(&mut state)?;
    if !add_to_both(&mut figures, root, &added) {
        return Err(21);
    }
    (*m, *account) = (state, figures);
    Ok(answer)
}

pub fn accounted_order(m: &mut [u64], account: &mut [u64], time: u64, root: u64, reset: u64) -> Row {
    keep(m, account, |m| {
        let answer = ordered(m, time, root, reset)?;
        Ok((answer, root, Added::Order(answer[0])))
    })
}

pub fn accounted_lockout(m: &mut [u64], account: &mut [u64], time: u64, level: u64, root: u64) -> Row {
    keep(m, account, |m| Ok((locked_out(m, time, level, root)?, 0, Added::Nothing)))
}

pub fn accounted_offer(m: &mut [u64], account: &mut [u64], time: u64, root: u64, unit: u64, premium: u64, contracts: u64) -> Row {
    keep(m, account, |m| {
        let answer = offered(m, &Offer { time, root, unit, premium, contracts })?;
        let added = if answer[0] == 0 { Added::Offer(premium, contracts, answer) } else { Added::Nothing };
        Ok((answer, root, added))
    })
}

#[allow(clippy::too_many_arguments)]
pub fn accounted_send(
    m: &mut [u64],
    account: &mut [u64],
    time: u64,
    root: u64,
    unit: u64,
    premium: u64,
    contracts: u64,
    identity: u64,
    reports: u64,
) -> Row {
    keep(m, account, |m| {
        let answer = sent(m, &Offer { time, root, unit, premium, contracts }, identity, reports)?;
        Ok((answer, root, Added::Order(answer[0])))
    })
}

pub fn accounted_report(m: &mut [u64], account: &mut [u64], time: u64, identity: u64, contracts: u64) -> Row {
    keep(m, account, |m| {
        let (answer, root) = reported(m, time, identity, contracts)?;
        Ok((answer, root, Added::Report(answer)))
    })
}

pub fn accounted_close(m: &mut [u64], account: &mut [u64], time: u64, identity: u64) -> Row {
    keep(m, account, |m| Ok((closed(m, time, identity)?, 0, Added::Nothing)))
}
