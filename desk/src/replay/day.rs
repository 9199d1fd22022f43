//! A day replayed on a fresh state, record by record, in memory that does not grow with it: the use of every limit over time, the locks, the
//! figures, and the first lines of what did not simply pass.

use crate::answers::answer;
use crate::files::progress::Progress;
use crate::library::state::State;
use crate::profile::{level, Count, Profile};
use crate::records::source::Source;
use crate::replay::entries::{Entries, Group};
use crate::replay::lane::Lane;
use crate::replay::marks::{Kind, Marks};
use crate::replay::scale::{Curves, Scale};
use crate::session::passed::Passed;
use crate::session::register::Away;
use crate::session::resets::{lifts, zeroes};
use crate::session::sitting::Sitting;
use crate::session::sums::Sums;
use mbrumzheg::{Account, Answer, Event, Level, Offer, Root, Verdict};

/// So many orders sent away are told one by one.
pub const MOST_ORDERS: usize = 200;

/// The whole day, or the figures of the whole day and the pictures of a stretch.
pub struct Day {
    /// The first and the last time of the events that were not refused, in milliseconds.
    pub times: Option<(u64, u64)>,
    /// The stretch that the pictures show, if it is not the whole day.
    pub stretch: Option<(u64, u64)>,
    /// The use of each limit, by count.
    pub curves: Curves,
    /// Cuts and trips by count.
    pub marks: Vec<Marks>,
    /// By count, how much came back from away.
    pub backs: Vec<u64>,
    /// The first of the orders sent away, and when each was closed, in milliseconds.
    pub orders: Vec<(Away, Option<u64>)>,
    /// The firm's lane, then the roots'.
    pub lanes: Vec<Lane>,
    /// What did not simply pass, by group.
    pub entries: Entries,
    /// The figures.
    pub sums: Sums,
    /// The account of the whole day.
    pub account: Account,
}

impl Day {
    /// Replays a day on a state armed with the profile.
    pub fn replayed(profile: &Profile, from: &mut dyn Source, stretch: Option<(u64, u64)>, progress: &mut Progress) -> Result<Day, String> {
        let state = State::armed(&profile.text).map_err(|refused| refused.to_string())?;
        let mut sitting = Sitting::new(state, "", &profile.text);
        let mut day = Day::of_counts(profile, stretch);
        while let Some(piece) = from.next(sitting.clock())? {
            let passed = sitting.answer_piece(&piece, &mut day.curves);
            day.take(&sitting, &passed);
            progress.step();
        }
        let differing = sitting.differences();
        if !differing.is_empty() {
            let counts = answer::counts(profile, &differing);
            return Err(format!("the desk reckons otherwise than the library for {counts}, so it writes no page of this day"));
        }
        day.close(&mut sitting);
        day.account = sitting.account;
        Ok(day)
    }

    fn of_counts(profile: &Profile, stretch: Option<(u64, u64)>) -> Day {
        Day {
            times: None,
            stretch,
            curves: Curves::new(profile.counts.len(), stretch),
            marks: vec![Marks::default(); profile.counts.len()],
            backs: vec![0; profile.counts.len()],
            orders: Vec::new(),
            lanes: vec![Lane::default(); profile.roots.len() + 1],
            entries: Entries::default(),
            sums: Sums::default(),
            account: Account::new(),
        }
    }

    /// The first and the last time that the pictures show.
    pub fn span(&self) -> Option<(u64, u64)> {
        self.stretch.or(self.times)
    }

    fn take(&mut self, sitting: &Sitting, passed: &Passed) {
        self.sums.take(passed);
        let (Some(event), Ok(answer)) = (&passed.event, &passed.answer) else {
            if passed.event.is_none_or(|event| self.curves.shows(event.time().ms())) {
                self.entries.add(Group::Refused, passed.place, || answer::replayed(sitting, passed));
            }
            return;
        };
        let ms = event.time().ms();
        self.times = Some((self.times.map_or(ms, |(first, _)| first), ms));
        let scale = self.curves.reach(ms);
        for lock in &passed.ended {
            if let Some(lane) = self.lanes.get_mut(lock.level) {
                lane.ended(lock, ms, scale, self.stretch);
            }
        }
        if let (Event::Close(_), Some(order)) = (event, passed.away) {
            self.tell(order, Some(ms));
        }
        if !self.curves.shows(ms) {
            return;
        }
        if let Some(group) = group(event, answer).filter(|group| *group == Group::Away || passed.is_notable()) {
            self.entries.add(group, passed.place, || answer::replayed(sitting, passed));
        }
        self.mark(sitting, event, answer, passed, scale);
    }

    /// Marks what happened to levels and counts.
    fn mark(&mut self, sitting: &Sitting, event: &Event, answer: &Answer, passed: &Passed, scale: Scale) {
        let ms = event.time().ms();
        let mut mark = |level: usize, kind| {
            if let Some(lane) = self.lanes.get_mut(level) {
                lane.marks.add(kind, ms, passed.place, scale);
            }
        };
        if let Some(root) = event.root().filter(|_| !answer.verdict.passes()) {
            mark(level(root, answer.verdict == Verdict::FirmLocked), Kind::Rejected);
        }
        match event {
            Event::Offer(offer) => {
                let count_of = |place: &usize| sitting.profile.counts.get(*place);
                let mut cut_levels: Vec<usize> = passed.cut_by.iter().filter_map(count_of).map(Count::level).collect();
                cut_levels.dedup();
                cut_levels.into_iter().for_each(|level| mark(level, Kind::Cut));
                tripped(offer.root, answer).for_each(|level| mark(level, Kind::Trip));
            }
            Event::Report(report) => {
                let Some(order) = passed.away else { return };
                mark(level(order.sent.root, false), Kind::Back);
                tripped(order.sent.root, answer).for_each(|level| mark(level, Kind::Trip));
                self.take_back(sitting, &order.fill(report), passed.place, scale);
            }
            Event::Send(_) | Event::Close(_) => {}
            Event::Order { root, reset, .. } => {
                let kind = if zeroes(*reset) == lifts(*reset) { Kind::Reset } else { Kind::Unlock };
                lifts(*reset).of(*root).into_iter().for_each(|level| mark(level, kind));
            }
            Event::Lockout { level: Level::Firm, .. } => mark(0, Kind::Lockout),
            Event::Lockout { level: Level::Root(root), .. } => mark(level(*root, false), Kind::Lockout),
        }
        for (counts, kind) in [(passed.cut_by.clone(), Kind::Cut), (passed.tripping().collect(), Kind::Trip)] {
            for place in counts {
                if let Some(marks) = self.marks.get_mut(place) {
                    marks.add(kind, ms, passed.place, scale);
                }
            }
        }
    }

    /// Counts what came back from away for every rule that covers it.
    fn take_back(&mut self, sitting: &Sitting, fill: &Offer, place: usize, scale: Scale) {
        for (rule, count) in sitting.profile.covering(fill) {
            self.backs[count.place] = self.backs[count.place].saturating_add(rule.adds(fill, fill.contracts.count()));
            self.marks[count.place].add(Kind::Back, fill.time.ms(), place, scale);
        }
    }

    /// Tells an order that was sent away, if it was open in the time that is shown and there is room.
    fn tell(&mut self, order: Away, closed: Option<u64>) {
        let (first, last) = self.stretch.unwrap_or((0, u64::MAX));
        let is_shown = order.sent.time.ms() <= last && closed.is_none_or(|ms| first <= ms);
        if is_shown && self.orders.len() < MOST_ORDERS {
            self.orders.push((order, closed));
        }
    }

    /// Ends the day: fills leave their windows up to a stretch's end, and locks that hold are drawn to it.
    fn close(&mut self, sitting: &mut Sitting) {
        let Some((scale, (_, last))) = self.curves.scale.zip(self.span()) else { return };
        sitting.run_out(last, &mut self.curves);
        sitting.away.orders().iter().for_each(|order| self.tell(*order, None));
        for lock in sitting.standing.locks() {
            if let Some(lane) = self.lanes.get_mut(lock.level) {
                lane.holds(lock, last, scale, self.stretch);
            }
        }
    }
}

/// The levels that an offer or a report on a root has tripped.
fn tripped(root: Root, answer: &Answer) -> impl Iterator<Item = usize> {
    let levels = [(level(root, false), answer.root_trip), (0, answer.firm_trip)];
    levels.into_iter().filter_map(|(level, is_tripped)| is_tripped.then_some(level))
}

/// Where an event that was not refused stands in the table, if it stands there at all.
fn group(event: &Event, answer: &Answer) -> Option<Group> {
    match event {
        _ if !answer.verdict.passes() => Some(Group::Rejected),
        Event::Offer(_) => Some(Group::Trips),
        Event::Order { .. } | Event::Lockout { .. } => Some(Group::Locks),
        Event::Send(_) | Event::Report(_) | Event::Close(_) => Some(Group::Away),
    }
}
