//! What came up of resets that unlock and forget nothing.

use second::unit::{Armed, Marks};

use crate::scripts::Step;

/// What T and E found to lift.
pub const LIFTED: &[&str] =
    &["a root's trip", "a root's lockout", "the firm's trip", "the firm's lockout", "nothing of the root", "nothing of the firm"];

/// The places of an order in that group, by the state before it: none if its reset is another or its root unknown.
pub fn lifted(armed: &Armed, step: &Step) -> Vec<usize> {
    let [_, root, reset, ..] = step.numbers;
    let Some(marks) = usize::try_from(root).ok().and_then(|root| armed.roots.get(root)) else { return Vec::new() };
    let of = |marks: &Marks, first: usize, nothing: usize| match (marks.tripped, marks.user) {
        (false, false) => vec![nothing],
        (tripped, user) => [(tripped, first), (user, first + 1)].into_iter().filter(|(is, _)| *is).map(|(_, place)| place).collect(),
    };
    match reset {
        4 => of(marks, 0, 4),
        5 => of(&armed.firm, 2, 5),
        6 => [of(marks, 0, 4), of(&armed.firm, 2, 5)].concat(),
        _ => Vec::new(),
    }
}

/// Of which level a rule stands at its limit when an offer that it covers is granted nothing: such an offer trips again.
pub const USED: &[&str] = &["of the root", "of the firm"];

/// The places of an offer in that group, which was not locked out.
pub fn used(armed: &Armed, root: u64, unit: u64, grant: u64) -> Vec<usize> {
    let rules = armed.profile.rules.iter().zip(&armed.totals);
    let at_limit = rules.filter(|(rule, totals)| {
        let account = rule.account(root, unit).filter(|_| grant == 0 && rule.window.is_none());
        account.is_some_and(|account| totals[account as usize] >= rule.limit)
    });
    at_limit.map(|(rule, _)| usize::from(rule.is_firm())).collect()
}
