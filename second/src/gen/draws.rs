//! The calls that a maker draws, with numbers near the limits and window ends of its unit.

use super::call::Call;
use super::maker::{Maker, Pace};
use crate::profile::{Measure, MOST_BYTES, UNITS};
use crate::{profile_out, LAST_TIME, MOST_CONTRACTS, MOST_PREMIUM};

impl Maker {
    /// Remaining of some rule, most times on a unit that is the rule's own.
    pub(super) fn remaining(&mut self) -> Call {
        let rules = self.state().map_or(4, |armed| armed.profile.rules.len() as u64);
        let rule = self.random.below(rules);
        let (time, unit) = (self.time(), self.own_unit(rule));
        let odd = self.random.once_in(20);
        match self.random.below(3) {
            0 if odd => Call::Remaining { time: self.odd_time(), rule, unit },
            1 if odd => Call::Remaining { time, rule: self.random.pick(&[rules, 255, 256, u64::MAX]), unit },
            _ if odd => Call::Remaining { time, rule, unit: self.random.pick(&[0, 1, 2, 3, 4, u64::MAX]) },
            _ => Call::Remaining { time, rule, unit },
        }
    }

    /// A unit of which the rule keeps an account; any of the four if there is no such rule.
    fn own_unit(&mut self, rule: u64) -> u64 {
        let known = self.state().and_then(|armed| armed.profile.rules.get(rule as usize));
        let own: Vec<u64> = (0..UNITS).filter(|unit| known.is_none_or(|rule| rule.has_account(*unit))).collect();
        self.random.pick(&own)
    }

    pub(super) fn text(&mut self) -> Call {
        let verdict = self.random.pick(&[0, 1, 1, 2, 2, 3, u64::MAX]);
        Call::Text { verdict, room: self.random.pick(&[0, 18, 19, 20, 21, 64]) }
    }

    /// Profile with about as much room as it needs, with none, or with room for the longest text that arms.
    pub(super) fn profile(&mut self) -> Call {
        let needed = self.state().map_or(0, |armed| profile_out::text(&armed.profile).len() as u64);
        let short = needed.saturating_sub(1);
        Call::Profile { room: self.random.pick(&[0, short, short, needed, needed, needed + 1, needed + 40, MOST_BYTES as u64]) }
    }

    pub(super) fn lockout(&mut self) -> Call {
        let level = u64::from(self.random.once_in(3));
        let root = if level == 1 { 0 } else { self.root() };
        Call::Lockout { time: self.time(), level, root }
    }

    pub(super) fn order(&mut self) -> Call {
        let resets: &[u64] = if self.forgets { &[0, 0, 0, 1, 2, 3, 4, 5, 6] } else { &[0, 0, 4, 5, 6] };
        Call::Order { time: self.time(), root: self.root(), reset: self.random.pick(resets) }
    }

    /// An offer, or what opens the root if it or the firm is locked.
    pub(super) fn offer(&mut self) -> Call {
        let time = self.time();
        let root = self.root();
        let unit = self.random.below(4);
        if let Some(reset) = self.wanted_reset(root) {
            if self.random.once_in(3) {
                let lifts_only = !self.forgets || self.random.once_in(3);
                return Call::Order { time, root, reset: reset + 3 * u64::from(lifts_only) };
            }
        }
        let (premium, contracts) = self.amounts(time, root, unit);
        Call::Offer { time, root, unit, premium, contracts }
    }

    /// The reset with counts that opens the root, if something is locked; the one without counts is 3 above it.
    fn wanted_reset(&self, root: u64) -> Option<u64> {
        let armed = self.state()?;
        let root_locked = armed.roots.get(root as usize).is_some_and(|marks| marks.locked());
        match (armed.firm.locked(), root_locked) {
            (false, false) => None,
            (false, true) => Some(1),
            (true, false) => Some(2),
            (true, true) => Some(3),
        }
    }

    /// A premium and contracts, half the time near what some covering rule leaves.
    pub(super) fn amounts(&mut self, time: u64, root: u64, unit: u64) -> (u64, u64) {
        let any = self.random.between(1, 300_000);
        let premium = self.random.pick(&[1, 9_999, 10_000, 10_000, 20_000, 70_000, 210_000, MOST_PREMIUM, any]);
        let any = self.random.between(1, 1_000);
        let contracts = self.random.pick(&[1, 1, 2, 5, 50, 100, 200, MOST_CONTRACTS, any]);
        match self.rule_with_rest(time, root, unit) {
            Some((measure, rest)) if self.random.once_in(2) => self.amounts_near(measure, rest, premium, contracts),
            _ => (premium, contracts),
        }
    }

    /// The measure of some rule that covers the offer, and what it leaves.
    fn rule_with_rest(&mut self, time: u64, root: u64, unit: u64) -> Option<(Measure, u64)> {
        let armed = self.follows.as_ref()?.armed.as_ref()?;
        let rules = armed.profile.rules.iter().enumerate();
        let covering: Vec<(usize, u64)> = rules.filter_map(|(place, rule)| Some((place, rule.account(root, unit)?))).collect();
        if covering.is_empty() {
            return None;
        }
        let (place, account) = self.random.pick(&covering);
        let rest = self.follows.as_ref()?.remaining(time, place as u64, account).value;
        Some((armed.profile.rules[place].measure, rest))
    }

    /// Amounts that use up about what is left, or a part of it.
    fn amounts_near(&mut self, measure: Measure, rest: u64, premium: u64, contracts: u64) -> (u64, u64) {
        let part = self.random.pick(&[1, 1, 3, 10]);
        let more = self.random.below(4);
        let near = |value: u64, most: u64| (value / part + more).saturating_sub(1).clamp(1, most);
        match measure {
            Measure::Notional if self.random.once_in(3) => (near(rest, MOST_PREMIUM), 1),
            Measure::Notional => (premium, near(rest / premium, MOST_CONTRACTS)),
            Measure::Volume => (premium, near(rest, MOST_CONTRACTS)),
            Measure::Count => (premium, contracts),
        }
    }

    /// A known root if there is one.
    pub(super) fn root(&mut self) -> u64 {
        let few = self.random.below(self.roots.clamp(1, 3));
        let any = self.random.below(self.roots.max(1));
        self.random.pick(&[few, few, any])
    }

    /// A time at or after the clock that leaves room for the calls to come.
    pub(super) fn time(&mut self) -> u64 {
        if let Some(time) = self.window_end() {
            return time;
        }
        let even = (LAST_TIME - self.clock) / (self.left + 1);
        let step = match self.pace {
            Pace::Slow => self.random.pick(&[0, 0, 0, 1, 1, 2]),
            Pace::Window => self.random.pick(&[0, 1, 9, 50, 98, 99, 100, 101, 900, 999, 1_000, 1_001]),
            Pace::Even => self.random.between(0, 2 * even + 1),
        };
        if self.random.once_in(5_000) {
            return self.random.between(self.clock, LAST_TIME);
        }
        (self.clock + step).min(LAST_TIME)
    }

    /// Now and then a time at the end of some entry's window, or one before or after it.
    fn window_end(&mut self) -> Option<u64> {
        if !self.random.once_in(6) {
            return None;
        }
        let armed = self.follows.as_ref()?.armed.as_ref()?;
        let windows: Vec<u64> = armed.profile.rules.iter().filter_map(|rule| rule.window).collect();
        if windows.is_empty() || armed.log.is_empty() {
            return None;
        }
        let entry = armed.log[self.random.below(armed.log.len() as u64) as usize];
        let time = entry.time + self.random.pick(&windows) + self.random.below(3) - 1;
        let farthest = self.clock + 2_000 + 4 * (LAST_TIME - self.clock) / (self.left + 1);
        (time >= self.clock && time <= farthest.min(LAST_TIME)).then_some(time)
    }
}
