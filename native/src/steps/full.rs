//! Beginnings of days that fill the log, by fills and by orders sent away, or the register.

use second::unit::{Away, LOG_PLACES, MOST_REPORTS, REGISTER_PLACES};

use super::Day;
use crate::scripts::{Kind, Step};

impl Day {
    /// Arms with wide limits, and fills the log or leaves a place or two; often the next offers come before the oldest entry leaves, and then.
    pub(super) fn fill_the_log(&mut self) {
        let [window, other] = [(); 2].map(|_| self.random.pick(&[100, 101, 1_000, 60_000, 600_000, 86_400_000]));
        let count = self.random.pick(&[511, 512, 513, 1_000_000_000]);
        let profile = format!("FULL,rate_vol,X,1000000000,{window}\nFULL,rate_count,,{count},{other},T\nFULL,abs_vol,Y,600,,,C,F");
        self.queue.push_back(Step::arm(profile.into_bytes()));
        let mut time = self.random.below(1_000);
        let leaves = time + window.max(other);
        let roots = self.random.pick(&[1, 2]);
        for _ in 0..self.random.between(509, 514) {
            self.queue.push_back(Step::new(Kind::Offer, &[time, self.random.below(roots), self.random.below(4), 1, 1]));
            time += u64::from(self.random.once_in(20));
        }
        if self.random.once_in(2) {
            // a reset may give room back before the next offers
            let reset = Step::new(Kind::Order, &[time, self.random.below(2), self.random.pick(&[1, 2, 3, 3, 3, 4, 5, 6])]);
            self.queue.extend([reset, Step::new(Kind::Offer, &[time, 0, 0, 1, 1])]);
        }
        if !self.random.once_in(3) {
            let times = [leaves - 1, leaves + self.random.below(2)];
            self.queue.extend(times.map(|time| Step::new(Kind::Offer, &[time, 0, 0, 1, 1])));
        }
    }

    /// Arms with wide limits, fills a part of the log and keeps the rest for orders sent away, to the place or one more; then come offers, sendings,
    /// reports and closings, before the oldest entry leaves and after.
    pub(super) fn fill_by_sending(&mut self) {
        let window = self.random.pick(&[100, 1_000, 60_000]);
        let profile = format!("KEPT,rate_vol,X,1000000000,{window}\nKEPT,abs_vol,X,600\nKEPT,abs_count,,1000,,T");
        self.queue.push_back(Step::arm(profile.into_bytes()));
        let kept = self.random.pick(&[1, 5, 9, 9]);
        let any = self.random.between(1, LOG_PLACES as u64);
        let (first, fills) = (self.random.below(1_000), self.random.pick(&[any, LOG_PLACES as u64 - kept]));
        let time = first + self.random.below(3);
        self.queue.extend((0..fills).map(|place| Step::new(Kind::Offer, &[if place == 0 { first } else { time }, 0, 0, 1, 1])));
        let mut left = LOG_PLACES as u64 + self.random.below(2) - fills;
        for identity in 0..REGISTER_PLACES as u64 {
            let reports = left.min(self.random.pick(&[MOST_REPORTS, MOST_REPORTS, 9]));
            if reports > 0 {
                let order = self.wide_order(identity, reports);
                self.queue.push_back(Step::send(time, order));
            }
            left -= reports;
        }
        if !self.random.once_in(3) {
            // reports of the first order into the places that it keeps, and one too many
            self.queue.extend((0..=MOST_REPORTS).map(|_| Step::new(Kind::Report, &[time, 0, 1])));
        }
        for late in [time, first + window - 1, first + window, first + window + 1] {
            self.near_the_last_place(late.max(time));
        }
    }

    /// An order of many contracts on any unit of the root.
    fn wide_order(&mut self, identity: u64, reports: u64) -> Away {
        Away {
            identity,
            root: 0,
            unit: self.random.below(4),
            premium: 1,
            contracts: self.random.pick(&[1, 200, 1_000_000, 1_000_000]),
            reports,
        }
    }

    /// Calls that take, keep or give back the last places of the log.
    fn near_the_last_place(&mut self, time: u64) {
        for _ in 0..self.random.below(8) {
            let identity = self.random.below(REGISTER_PLACES as u64);
            let reports = self.random.pick(&[1, 1, 2, 16]);
            let step = match self.random.below(6) {
                0 | 1 => Step::new(Kind::Offer, &[time, 0, self.random.below(4), 1, 1]),
                2 => Step::send(time, self.wide_order(100 + identity, reports)),
                3 | 4 => Step::new(Kind::Report, &[time, identity, self.random.pick(&[1, 1, 200])]),
                _ => Step::new(Kind::Close, &[time, identity]),
            };
            self.queue.push_back(step);
        }
    }

    /// Arms, with a rate rule or without, and sends orders until the register is full or nearly so; then more, under a lock too, and closings.
    pub(super) fn fill_the_register(&mut self) {
        // 64 orders of 8 reports keep all places; without a rate rule none is kept, whatever they ask for
        let (profile, most) =
            self.random.pick(&[("REG,abs_vol,X,1000", MOST_REPORTS), ("REG,abs_vol,X,1000\nREG,rate_count,,500,1000,T", 8)]);
        self.queue.push_back(Step::arm(profile.into()));
        for identity in 0..REGISTER_PLACES as u64 - self.random.below(2) {
            let reports = self.random.between(1, most);
            let order = self.wide_order(identity, reports);
            self.queue.push_back(Step::send(identity, order));
        }
        if self.random.once_in(3) {
            self.queue.push_back(Step::new(Kind::Lockout, &[70, self.random.below(2), 0]));
        }
        for time in 70..80 {
            let identity = self.random.below(REGISTER_PLACES as u64 + 2);
            let order = self.wide_order(identity, 1);
            let closes = self.random.once_in(3);
            self.queue.push_back(if closes { Step::new(Kind::Close, &[time, identity]) } else { Step::send(time, order) });
        }
    }
}
