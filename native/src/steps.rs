//! The steps of one day, drawn from a seed: calls near the second program's limits and window ends, arbitrary numbers, lengths and damage.

mod accounts;
mod full;

use std::collections::VecDeque;

use second::gen::{self, Maker, Random};
use second::lent::Lent;
use second::place::MARK;
use second::unit::LOG_PLACES;
use second::LAST_TIME;

use self::accounts::Keeping;
use crate::damage::{any_number, damage};
use crate::pair::Pair;
use crate::profiles::clashing;
use crate::scripts::{Kind, Step};
use crate::SIZE;

/// Makes the steps of a day.
pub struct Day {
    random: Random,
    maker: Maker,
    /// Steps that come next.
    queue: VecDeque<Step>,
    /// What takes the last damage back, until it is known whether the state is still sound.
    repair: Vec<Step>,
    /// Calls that are still to be planned.
    left: u64,
    keeping: Keeping,
}

impl Day {
    /// The day of a seed: lengths, junk under a mark of 0 and faulty profiles at times, then a profile that arms.
    pub fn new(seed: u64) -> Day {
        let mut random = Random::new(seed);
        let calls = random.pick(&[50, 300, 300, 1_000, 4_000]);
        let maker = Maker::beside(random.number(), calls as usize);
        let mut day = Day { random, maker, queue: VecDeque::new(), repair: Vec::new(), left: calls, keeping: Keeping::none(seed) };
        day.begin_account();
        let length = SIZE as u64 + day.random.pick(&[0, 0, 0, 1, 2, 100]);
        day.queue.push_back(Step::new(Kind::Length, &[if day.random.once_in(200) { 70_000 } else { length }]));
        if day.random.once_in(4) {
            for _ in 0..day.random.between(1, 20) {
                let place = day.random.between(MARK as u64 + 1, SIZE as u64 - 1);
                day.queue.push_back(Step::new(Kind::Damage, &[place, day.random.number()]));
            }
        }
        for _ in 0..day.random.below(20) {
            let damaged = gen::damaged_profile(day.random.number());
            let clashing = clashing(&mut day.random);
            day.queue.push_back(Step::arm(if day.random.once_in(4) { damaged } else { clashing }));
            day.queue.push_back(Step::new(Kind::Clear, &[]));
        }
        match day.random.below(16) {
            0 | 1 => day.fill_the_log(),
            2 | 3 => day.fill_by_sending(),
            4 => day.fill_the_register(),
            _ => {}
        }
        day.queue.push_back(Step::arm(gen::valid_profile(day.random.number())));
        day
    }

    /// The next step, by how the second program stands; none when the day is over.
    pub fn next(&mut self, pair: &mut Pair) -> Option<Step> {
        if self.queue.is_empty() && self.left > 0 {
            self.left -= 1;
            self.plan(pair.second());
        }
        let step = self.queue.pop_front()?;
        Some(self.kept(step, pair))
    }

    /// Plans at least one step.
    fn plan(&mut self, second: &mut Lent) {
        let repair = std::mem::take(&mut self.repair);
        let unsound = second.is_unsound();
        match self.random.below(400) {
            0..=199 if unsound && !repair.is_empty() => self.queue.extend(repair),
            0..=59 if unsound => self.clear_and_arm(),
            0 => self.lend_less(second),
            1..=14 => self.damage(second),
            choice => {
                // what is unsound may still be taken back later
                self.repair = if unsound { repair } else { Vec::new() };
                let usual = self.usual(second);
                let step = match choice {
                    15..=24 => self.with_any_number(usual),
                    25..=64 => self.when_the_oldest_leaves(usual, second),
                    _ => usual,
                };
                self.queue.push_back(step);
            }
        }
    }

    /// A call near the limits and window ends of the second program.
    fn usual(&mut self, second: &mut Lent) -> Step {
        self.maker.next_on(second.unit()).into()
    }

    /// A profile out: room for it to the byte, for one byte less or more, for any part of it, for more, or none.
    fn profile(&mut self, second: &mut Lent) -> Step {
        let size = second.unit().profile(&mut []).size;
        let [part, more] = [self.random.below(size.max(1)), size + self.random.between(2, 300)];
        Step::new(Kind::Profile, &[self.random.pick(&[0, part, size.saturating_sub(1), size, size, size + 1, more])])
    }

    /// An offer or sending, with no place of the log left, at the time at which its oldest entry leaves, or one millisecond beside it; other calls as
    /// they are.
    fn when_the_oldest_leaves(&mut self, mut step: Step, second: &mut Lent) -> Step {
        let Some(armed) = &second.unit().armed else { return step };
        let (oldest, longest) = (armed.log.front(), armed.profile.longest_window());
        let kept = armed.away.iter().map(|order| order.reports as usize).sum::<usize>();
        let is_full = armed.log.len() + kept >= LOG_PLACES;
        if let (Kind::Offer | Kind::Send, true, Some(oldest), Some(longest)) = (step.kind, is_full, oldest, longest) {
            let time = oldest.time + longest - 1 + self.random.below(3);
            if (armed.clock..=LAST_TIME).contains(&time) {
                step.numbers[0] = time;
            }
        }
        step
    }

    /// The call with any number in one of its places, at times in more.
    fn with_any_number(&mut self, mut step: Step) -> Step {
        let places = step.own().len() as u64;
        for _ in 0..self.random.pick(&[1, 1, 2, 5]).min(places) {
            step.numbers[self.random.below(places) as usize] = any_number(&mut self.random);
        }
        step
    }

    /// Clears the memory and arms it anew.
    fn clear_and_arm(&mut self) {
        self.queue.push_back(Step::new(Kind::Clear, &[]));
        self.queue.push_back(Step::arm(gen::valid_profile(self.random.number())));
    }

    /// Lends too little for some calls, then more than enough.
    fn lend_less(&mut self, second: &mut Lent) {
        let size = SIZE as u64;
        let any = self.random.below(size);
        self.queue.push_back(Step::new(Kind::Length, &[self.random.pick(&[0, 1, size - 1, size - 1, any])]));
        for kind in [Kind::Status, Kind::Clear] {
            let step = self.usual(second);
            self.queue.extend([step, Step::new(kind, &[])]);
        }
        let profile = self.profile(second);
        self.queue.push_back(profile);
        self.queue.push_back(Step::arm(gen::profile(self.random.number())));
        self.queue.push_back(Step::new(Kind::Length, &[size + self.random.pick(&[0, 0, 1, 1, 7, 100])]));
    }

    /// Damages the state and looks at it, at its rules too at times; what takes the damage back is kept.
    fn damage(&mut self, second: &mut Lent) {
        for (place, number) in damage(&mut self.random, second) {
            self.queue.push_back(Step::new(Kind::Damage, &[place as u64, number]));
            self.repair.push(Step::new(Kind::Damage, &[place as u64, second.numbers()[place]]));
        }
        self.queue.push_back(Step::new(Kind::Status, &[]));
        if self.random.once_in(2) {
            let profile = self.profile(second);
            self.queue.push_back(profile);
        }
    }
}
