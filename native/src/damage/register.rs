//! Registers of orders sent away, reshaped so that they nearly make sense.

use second::gen::Random;
use second::unit::{Armed, Away, LAST_IDENTITY, LOG_PLACES, MOST_REPORTS, MOST_TOTAL, REGISTER_PLACES};

/// Takes an order away, doubles, exchanges, empties or changes some, adds some, or brings the use near the log's places.
pub fn reshape_register(random: &mut Random, armed: &mut Armed) {
    if armed.away.is_empty() {
        return add_to_use(random, armed);
    }
    let [one, other] = [(); 2].map(|_| random.below(armed.away.len() as u64) as usize);
    let away = &mut armed.away;
    match random.below(9) {
        0 => drop(away.remove(one)),
        1 if away.len() < REGISTER_PLACES => away.insert(one, away[other]),
        2 => away.swap(one, other),
        3 => away[one].contracts = 0,
        4 => away[one].reports = random.pick(&[0, MOST_REPORTS, MOST_REPORTS + 1]),
        5 => away[one].identity = random.pick(&[away[other].identity, away[other].identity ^ 1]),
        6 => away[one].root = random.below(armed.roots.len() as u64 + 1).min(63),
        7 => bring_totals_up(random, armed, one),
        _ => add_to_use(random, armed),
    }
}

/// An order of any root; its identity may stand in the register already.
fn any_order(random: &mut Random, armed: &Armed, reports: u64) -> Away {
    let any = random.below(LAST_IDENTITY + 1);
    let roots = armed.roots.len() as u64 + u64::from(random.once_in(50));
    let free = (0..).find(|free| armed.away.iter().all(|order| order.identity != *free)).unwrap_or(0);
    Away {
        identity: random.pick(&[free, free, free, free, free, free, any]),
        root: random.below(roots).min(63),
        unit: random.below(4),
        premium: random.pick(&[1, 70_000, 100_000_000]),
        contracts: random.pick(&[0, 1, 1_000_000]),
        reports,
    }
}

/// Adds orders until the use is just at the log's places, or one below or above, or there are no more places for orders.
fn add_to_use(random: &mut Random, armed: &mut Armed) {
    if armed.roots.is_empty() {
        return;
    }
    let longest = armed.profile.longest_window().unwrap_or(0);
    let inside = armed.log.iter().filter(|entry| entry.time + longest > armed.clock).count() as u64;
    let used = inside + armed.away.iter().map(|order| order.reports).sum::<u64>();
    let mut wanted = (LOG_PLACES as u64 + random.pick(&[0, 0, 1]) - random.below(2)).saturating_sub(used);
    while wanted > 0 && armed.away.len() < REGISTER_PLACES {
        let reports = wanted.min(MOST_REPORTS);
        let order = any_order(random, armed, reports);
        armed.away.push(order);
        wanted -= reports;
    }
}

/// Brings the totals that count an order's reports up to where they are held, or nearly so.
fn bring_totals_up(random: &mut Random, armed: &mut Armed, place: usize) {
    let order = armed.away[place];
    for (rule, totals) in armed.profile.rules.iter().zip(&mut armed.totals) {
        if let (None, Some(account)) = (rule.window, rule.account(order.root, order.unit)) {
            totals[account as usize] = MOST_TOTAL - random.pick(&[0, 1, 50]);
        }
    }
}
