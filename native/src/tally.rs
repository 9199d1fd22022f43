//! What came up in a run: so that a run that saw too little does not pass.

mod accounts;
mod away;
mod groups;
mod lengths;
mod lifted;
mod register;
mod room;
mod shown;
mod units;

use second::lent::{Lent, Row};
use second::unit::{Armed, LOG_PLACES};

use self::groups::*;
use self::lengths::{lent_place, out_place};
use crate::pair::Pair;
use crate::scripts::{Kind, Step};

/// Counts of what came up.
pub struct Tally {
    pub calls: u64,
    /// The calls that keep an account.
    pub accounted: u64,
    /// The events of lists from which the account's figures were computed.
    pub listed: u64,
    refusals: [u64; 22],
    /// Offers that left a log of 512 entries.
    full_logs: u64,
    seen: [[u64; 12]; WANTED.len()],
    /// Was a number changed from outside since the last call, and was the state unsound before?
    damaged: Option<bool>,
    /// Which marks an order has to lift, and how many entries there are before it.
    lifts: Vec<usize>,
    entries: usize,
    /// The state before a sending, a report or a closing.
    armed: Option<Armed>,
    /// The account before an accounted call.
    account: Vec<u64>,
}

impl Default for Tally {
    /// Nothing came up yet.
    fn default() -> Tally {
        Tally {
            calls: 0,
            accounted: 0,
            listed: 0,
            refusals: [0; 22],
            full_logs: 0,
            seen: [[0; 12]; WANTED.len()],
            damaged: None,
            lifts: Vec::new(),
            entries: 0,
            armed: None,
            account: Vec::new(),
        }
    }
}

impl Tally {
    /// Looks at a step before it is run.
    pub fn before(&mut self, step: &Step, pair: &mut Pair) {
        if step.accounted {
            let (account, length) = pair.account();
            self.account.clear();
            self.account.extend_from_slice(account);
            accounts::before(account, length).into_iter().for_each(|(group, place)| self.see(ACCOUNTS + group, place));
        }
        let second = pair.second();
        if step.kind == Kind::Damage && self.damaged.is_none() {
            let [place, number, ..] = step.numbers;
            self.damaged = (second.numbers().get(place as usize) != Some(&number)).then(|| second.is_unsound());
        }
        if !step.is_call() {
            return;
        }
        self.see(LENT, lent_place(second.length()));
        if let Some(was_unsound) = self.damaged.take() {
            self.see_damage(second);
            self.see(
                DAMAGED,
                match (second.is_unsound(), second.unit().armed.is_some()) {
                    (true, _) => 1,
                    (false, false) => 2,
                    (false, true) => {
                        if was_unsound {
                            3
                        } else {
                            0
                        }
                    }
                },
            );
        }
        match step.kind {
            Kind::Offer => self.see_windows(step.numbers[0], second),
            Kind::Order => self.look_before(step, second),
            Kind::Send | Kind::Report | Kind::Close => self.armed = second.unit().armed.clone(),
            _ => {}
        }
    }

    /// Looks at a call's row and at what it left.
    pub fn after(&mut self, step: &Step, row: Row, pair: &mut Pair) {
        if !step.is_call() {
            return;
        }
        self.calls += 1;
        if step.accounted {
            self.accounted += 1;
            let seen = accounts::seen(step, row, &self.account, pair);
            seen.into_iter().for_each(|(group, place)| self.see(ACCOUNTS + group, place));
        }
        let second = pair.second();
        self.refusals[row[0] as usize] += 1;
        self.see(CALLS, step.kind as usize - Kind::Arm as usize);
        match step.kind {
            Kind::Profile => self.see(OUT, out_place(step.numbers[0], row)),
            Kind::Send | Kind::Report | Kind::Close => self.see_away(step, row, second),
            Kind::Offer if row[0] == 15 => self.see_full(step.numbers[0], second),
            Kind::Remaining if [0, 13].contains(&row[0]) => self.see_remaining(step, second),
            _ if row[0] != 0 => {}
            Kind::Arm => self.see_profile(second),
            Kind::Order => self.see_order(step.numbers[2], second),
            Kind::Lockout => self.see(LOCKOUTS, step.numbers[1] as usize),
            Kind::Offer => self.see_offer(step, row, second),
            _ => {}
        }
    }

    fn see(&mut self, group: usize, place: usize) {
        self.seen[group][place] += 1;
    }

    /// Does the window of some rule end for some entry of the log at this time, or one millisecond beside it?
    fn see_windows(&mut self, time: u64, second: &mut Lent) {
        let Some(armed) = &second.unit().armed else { return };
        let ends_at = |end: u64| {
            armed.profile.rules.iter().filter_map(|rule| end.checked_sub(rule.window?)).any(|begin| {
                let place = armed.log.partition_point(|entry| entry.time < begin);
                armed.log.get(place).is_some_and(|entry| entry.time == begin)
            })
        };
        let times = [time.saturating_sub(1), time, time.saturating_add(1)];
        let ends = times.map(ends_at);
        let full = armed.log.len() == LOG_PLACES;
        let leaves = armed.log.front().zip(armed.profile.longest_window()).map(|(oldest, longest)| oldest.time + longest);
        (0..3).filter(|place| ends[*place]).for_each(|place| self.see(WINDOWS, place));
        (0..3).filter(|place| full && leaves == Some(times[*place])).for_each(|place| self.see(OLDEST, place));
    }

    fn see_profile(&mut self, second: &mut Lent) {
        let Some(armed) = &second.unit().armed else { return };
        let (rules, roots) = (&armed.profile.rules, armed.roots.len() as u64);
        let on_unit = |root: u64, unit: u64| rules.iter().filter(|rule| !rule.is_firm() && rule.covers(root, unit)).count();
        let shapes = [
            rules.len() == 256,
            roots == 64,
            rules.iter().filter(|rule| rule.is_firm()).count() == 10,
            (0..roots).any(|root| (0..4).any(|unit| on_unit(root, unit) == 6)),
            roots == 0,
        ];
        (0..shapes.len()).filter(|place| shapes[*place]).for_each(|place| self.see(PROFILES, place));
    }

    /// What is wrong with a damaged state, or what it has that others have not.
    fn see_damage(&mut self, second: &mut Lent) {
        let found = match (second.is_unsound(), &second.unit().armed) {
            (false, Some(armed)) => register::sound(armed),
            (false, None) => Vec::new(),
            (true, _) => register::unsound(second.numbers()),
        };
        found.into_iter().for_each(|place| self.see(FOUND, place));
        if second.is_unsound() && room::is_sound_but_for_flags(second.numbers()) {
            self.see(FLAGLESS, 0);
        }
    }

    fn see_away(&mut self, step: &Step, row: Row, second: &mut Lent) {
        let (Some(before), Some(after)) = (self.armed.take(), &second.unit().armed) else { return };
        away::seen(step, row, &before, after).into_iter().for_each(|(group, place)| self.see(AWAY + group, place));
    }

    /// An offer for which the log has no place.
    fn see_full(&mut self, time: u64, second: &mut Lent) {
        let Some(armed) = &second.unit().armed else { return };
        let inside = |longest: u64| armed.log.iter().filter(|entry| entry.time + longest > time).count();
        let is_full = armed.profile.longest_window().is_some_and(|longest| inside(longest) == LOG_PLACES);
        self.see(FULL, usize::from(!is_full));
    }

    fn see_remaining(&mut self, step: &Step, second: &mut Lent) {
        let [_, rule, unit, ..] = step.numbers;
        let Some(armed) = &second.unit().armed else { return };
        self.see(ASKED, units::asked(armed, rule, unit));
    }

    /// Keeps what has to be known of the state before an order.
    fn look_before(&mut self, step: &Step, second: &mut Lent) {
        let Some(armed) = &second.unit().armed else { return };
        (self.lifts, self.entries) = (lifted::lifted(armed, step), armed.log.len());
    }

    fn see_order(&mut self, reset: u64, second: &mut Lent) {
        self.see(RESETS, reset as usize);
        let left = second.unit().armed.as_ref().map_or(0, |armed| armed.log.len());
        room::left(reset, self.entries, left).into_iter().for_each(|place| self.see(LEFT, place));
        std::mem::take(&mut self.lifts).into_iter().for_each(|place| self.see(LIFTED, place));
    }

    fn see_offer(&mut self, step: &Step, row: Row, second: &mut Lent) {
        let [time, root, unit, _, contracts, ..] = step.numbers;
        let [_, verdict, grant, root_trip, firm_trip] = row;
        self.see(
            OFFERS,
            match (verdict, grant) {
                (1, _) => 3,
                (2, _) => 4,
                (_, 0) => 2,
                _ => usize::from(grant < contracts),
            },
        );
        let just_reached = grant == contracts && root_trip + firm_trip > 0;
        let trips = [root_trip == 1, firm_trip == 1, root_trip + firm_trip == 2, just_reached];
        (0..trips.len()).filter(|place| trips[*place]).for_each(|place| self.see(TRIPS, place));
        let Some(armed) = &second.unit().armed else { return };
        self.full_logs += u64::from(armed.log.len() == LOG_PLACES && grant > 0);
        if verdict == 0 {
            let (beside, used) = (units::beside(armed, time, root, unit), lifted::used(armed, root, unit, grant));
            (0..beside.len()).filter(|place| beside[*place]).for_each(|place| self.see(BESIDE, place));
            used.into_iter().for_each(|place| self.see(USED, place));
        }
    }
}
