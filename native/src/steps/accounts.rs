//! Days whose events an account is kept of: how it begins, figures at the edge of the most, short accounts.

use second::account::{FIGURES, FIRM_ROW, MOST_FIGURE, NUMBERS};
use second::gen::Random;

use super::Day;
use crate::pair::Pair;
use crate::running::foreseen;
use crate::scripts::{Kind, Step};

/// The most that one event adds to a figure.
const MOST_ADDED: u64 = 100_000_000_000_000;

/// How an account is kept on a day.
pub struct Keeping {
    /// A source of its own, so that the day's calls are the same whether one is kept or not.
    random: Random,
    /// Once in so many events it is left out; 0 if none is kept.
    plain: u64,
    /// Once in so many events a figure near the most is taken back.
    relief: u64,
}

impl Keeping {
    /// None is kept.
    pub fn none(seed: u64) -> Keeping {
        Keeping { random: Random::new(!seed), plain: 0, relief: 4 }
    }
}

impl Day {
    /// Chooses whether an account is kept on this day, and begins it: with zeros, near the most, with any figures, or above the most.
    pub(super) fn begin_account(&mut self) {
        self.keeping.plain = self.keeping.random.pick(&[0, 0, 10, 1_000_000]);
        if self.keeping.plain == 0 {
            return;
        }
        if self.keeping.random.once_in(3) {
            let more = self.keeping.random.pick(&[1, 7, 100]);
            self.queue.push_back(Step::new(Kind::AccountLength, &[NUMBERS as u64 + more]));
        }
        match self.keeping.random.below(8) {
            0 => {
                self.keeping.relief = 40;
                (0..self.keeping.random.between(1, 12)).for_each(|_| self.put_figure(Day::near_the_most));
            }
            1 => (0..NUMBERS).for_each(|place| {
                let any = self.keeping.random.below(MOST_FIGURE - MOST_ADDED);
                self.queue.push_back(Step::new(Kind::AccountDamage, &[place as u64, any]));
            }),
            2 => (0..self.keeping.random.between(1, 3)).for_each(|_| self.put_figure(Day::above_the_most)),
            _ => {}
        }
    }

    /// Puts a number into a figure of the firm, of one of the first roots, or of any.
    fn put_figure(&mut self, number: fn(&mut Day) -> u64) {
        let step = Step::new(Kind::AccountDamage, &[self.any_figure(), number(self)]);
        self.queue.push_back(step);
    }

    /// The place of a figure: of the firm, of one of the first roots, or of any row.
    fn any_figure(&mut self) -> u64 {
        let [first, any] = [self.keeping.random.below(3), self.keeping.random.below(FIRM_ROW as u64)];
        let row = self.keeping.random.pick(&[FIRM_ROW as u64, first, first, any]);
        FIGURES as u64 * row + self.keeping.random.below(FIGURES as u64)
    }

    fn near_the_most(&mut self) -> u64 {
        let any = self.keeping.random.below(MOST_ADDED);
        MOST_FIGURE - self.keeping.random.pick(&[0, 1, 2, 9, 1_000, 1_000_000, any])
    }

    fn above_the_most(&mut self) -> u64 {
        let any = self.keeping.random.number();
        self.keeping.random.pick(&[MOST_FIGURE + 1, MOST_FIGURE + 1, any.max(MOST_FIGURE + 1), 1 << 63, u64::MAX])
    }

    /// The step with the account kept of it, if one is on this day; before it at times a change of the account.
    pub(super) fn kept(&mut self, step: Step, pair: &mut Pair) -> Step {
        let plain = self.keeping.plain;
        if plain == 0 || step.accounted || step.event().is_none() || self.keeping.random.once_in(plain) {
            return step;
        }
        let step = step.accounted();
        let change = self.relief(pair).or_else(|| self.change(&step, pair));
        match change {
            Some(change) => {
                self.queue.push_front(step);
                change
            }
            None => step,
        }
    }

    /// Lends enough of the account again, or takes a figure back that is above the most or near it.
    fn relief(&mut self, pair: &mut Pair) -> Option<Step> {
        let (account, length) = pair.account();
        if length < NUMBERS {
            let more = self.keeping.random.pick(&[0, 0, 1, 7]);
            return self.keeping.random.once_in(3).then(|| Step::new(Kind::AccountLength, &[NUMBERS as u64 + more]));
        }
        let place_above = |most: u64| account[..NUMBERS].iter().position(|figure| *figure > most);
        let (place, times) = match (place_above(MOST_FIGURE), place_above(MOST_FIGURE - MOST_ADDED)) {
            (Some(place), _) => (place, 3),
            (_, Some(place)) => (place, self.keeping.relief),
            _ => return None,
        };
        self.keeping.random.once_in(times).then(|| Step::new(Kind::AccountDamage, &[place as u64, 0]))
    }

    /// A change of the account before a call that keeps it, at times.
    fn change(&mut self, step: &Step, pair: &mut Pair) -> Option<Step> {
        match self.keeping.random.below(200) {
            0 => {
                let any = self.keeping.random.below(NUMBERS as u64);
                let last = NUMBERS as u64 - 1;
                Some(Step::new(Kind::AccountLength, &[self.keeping.random.pick(&[0, 1, last, last, any])]))
            }
            1 => Some(Step::new(Kind::AccountDamage, &[self.any_figure(), self.above_the_most()])),
            2..=24 => self.edge(step, pair),
            _ => None,
        }
    }

    /// Puts a figure that the call raises where it then reaches the most just so, or passes it by one; or any of its root or the firm to the most,
    /// if it raises none.
    fn edge(&mut self, step: &Step, pair: &mut Pair) -> Option<Step> {
        let (answer, added) = foreseen(pair.second().unit(), step.event()?);
        let raised: Vec<usize> = (0..NUMBERS).filter(|place| added[*place] > 0).collect();
        if raised.is_empty() || answer.refusal != 0 {
            return Some(Step::new(Kind::AccountDamage, &[self.any_figure(), MOST_FIGURE]));
        }
        let place = self.keeping.random.pick(&raised);
        Some(Step::new(Kind::AccountDamage, &[place as u64, MOST_FIGURE - added[place] + self.keeping.random.below(2)]))
    }
}
