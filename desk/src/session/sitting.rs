//! An armed state with the profile that it was armed from and the day that it was passed.

use crate::library::piece::Piece;
use crate::library::state::{Cleared, State};
use crate::profile::{level, Count, Profile, Rule};
use crate::records::spool::Spool;
use crate::session::ledger::{Ledger, Used, Watch};
use crate::session::passed::Passed;
use crate::session::register::Register;
use crate::session::resets;
use crate::session::standing::Standing;
use mbrumzheg::{Account, Answer, Event, Level, Marks, Offer, Refusal, Report, Root, Status, Time, UnitOfRoot, Verdict};

/// An armed state and what the desk remembers of its day.
pub struct Sitting {
    state: State,
    /// What it was armed from.
    pub profile: Profile,
    /// Every piece passed, refused and faulty ones too, so that a replay gives the same lines.
    pub day: Spool,
    /// How many records were passed: the place of the last.
    pub place: usize,
    /// How many events were typed since the day was last saved.
    pub unsaved: usize,
    /// Where profile and records come from.
    pub sources: Sources,
    /// Which levels are locked, and which counts have tripped.
    pub standing: Standing,
    /// The orders sent away that are open.
    pub away: Register,
    /// The day's account, which the library keeps.
    pub account: Account,
    ledger: Ledger,
}

/// The files that a day is made of.
#[derive(Clone, Debug, Default, PartialEq, Eq)]
pub struct Sources {
    /// The profile's name.
    pub profile: String,
    /// The names of files whose records were replayed, in order.
    pub replayed: Vec<String>,
    /// How many events were typed.
    pub typed: usize,
}

impl Sitting {
    /// A day that begins on a state just armed from the text of a file.
    pub fn new(state: State, file: &str, text: &[u8]) -> Sitting {
        let profile = Profile::of_accepted(text);
        let (standing, ledger) = (Standing::of(&profile), Ledger::of(&profile));
        let sources = Sources { profile: file.to_string(), ..Sources::default() };
        let (day, away, account) = Default::default();
        Sitting { state, profile, day, place: 0, unsaved: 0, sources, standing, away, account, ledger }
    }

    /// The state, to be looked at.
    pub fn state(&self) -> &State {
        &self.state
    }

    /// The time of the last event that was not refused.
    pub fn clock(&self) -> Time {
        self.state.clock()
    }

    /// How many roots are tripped, locked by hand and locked at all, and the lowest that is locked.
    pub fn status(&self) -> Result<Status, Refusal> {
        self.state.status()
    }

    /// The names of the roots whose marks are such.
    pub fn roots_with(&self, wanted: fn(Marks) -> bool) -> Vec<String> {
        self.state.roots().filter(|(root, _)| wanted(self.state.root_marks(*root))).map(|(_, name)| name.to_string()).collect()
    }

    /// Ends the day: the state without its rules.
    pub fn clear(self) -> Cleared {
        self.state.clear()
    }

    /// The active rules as a profile's text, as the library writes it.
    pub fn active(&self) -> Result<String, String> {
        self.state.profile().map_err(|refusal| refusal.to_string())
    }

    /// Passes an event that was typed.
    pub fn pass(&mut self, event: Event) -> Passed {
        self.unsaved += 1;
        self.sources.typed += 1;
        self.pass_piece(&Piece::of(event))
    }

    /// Passes a piece of a file, and keeps it.
    pub fn pass_piece(&mut self, piece: &Piece) -> Passed {
        self.day.add(piece);
        self.answer_piece(piece, &mut ())
    }

    /// Passes a piece without keeping it, and tells what the counts have used.
    pub fn answer_piece(&mut self, piece: &Piece, watch: &mut dyn Watch) -> Passed {
        self.place += 1;
        let event = piece.event();
        let answer = event.map_or(Err(Refusal::FaultyRecord), |event| self.state.answer(&mut self.account, event));
        let mut passed = Passed::new(self.place, event, answer);
        if let (Some(event), Ok(answer)) = (event, answer) {
            self.ledger.advance(event.time().ms(), watch);
            self.reckon(&event, &answer, &mut passed, watch);
        }
        passed
    }

    /// Follows an event that was not refused: what the counts have used, which of them cut and tripped, which levels are locked.
    fn reckon(&mut self, event: &Event, answer: &Answer, passed: &mut Passed, watch: &mut dyn Watch) {
        let ms = event.time().ms();
        match event {
            Event::Offer(offer) if answer.verdict.passes() => self.fill(offer, answer, passed, watch),
            Event::Offer(offer) => self.standing.reject(rejecting(answer, offer.root), Some(offer.contracts.count())),
            Event::Order { root, reset, .. } => {
                for level in resets::zeroes(*reset).of(*root) {
                    self.profile.counts_of(level).for_each(|count| self.ledger.forget(count.place, ms, watch));
                }
                for level in resets::lifts(*reset).of(*root) {
                    self.stand(level, ms, &[], passed);
                }
                if !answer.verdict.passes() {
                    self.standing.reject(rejecting(answer, *root), None);
                }
            }
            Event::Lockout { level: Level::Firm, .. } => self.stand(0, ms, &[], passed),
            Event::Lockout { level: Level::Root(root), .. } => self.stand(level(*root, false), ms, &[], passed),
            Event::Send(sending) if answer.verdict.passes() => passed.away = Some(self.away.send(*sending)),
            Event::Send(sending) => self.standing.reject(rejecting(answer, sending.root), None),
            Event::Report(report) => self.come_back(report, answer, passed, watch),
            Event::Close(closing) => passed.away = self.away.close(closing.identity),
        }
    }

    /// Follows an offer that was not locked out.
    fn fill(&mut self, offer: &Offer, answer: &Answer, passed: &mut Passed, watch: &mut dyn Watch) {
        let grant = answer.grant;
        for (rule, count) in self.profile.covering(offer) {
            let left = self.ledger.left(rule, count.place);
            passed.covered = true;
            if answer.cuts(offer.contracts) && rule.allowance(offer, left) == grant {
                passed.cut_by.push(count.place);
            }
            if rule.window.is_none() && rule.adds(offer, grant) == left {
                passed.reached.push(count.place);
            }
            self.ledger.add(rule, count.place, offer.time.ms(), Used::granted(rule.adds(offer, grant)), watch);
        }
        self.trip(offer, answer, passed);
    }

    /// Follows a report from away: it is counted in full, whatever the limits leave.
    fn come_back(&mut self, report: &Report, answer: &Answer, passed: &mut Passed, watch: &mut dyn Watch) {
        let Some(order) = self.away.report(report) else { return };
        let fill = order.fill(report);
        passed.away = Some(order);
        for (rule, count) in self.profile.covering(&fill) {
            passed.covered = true;
            self.ledger.add(rule, count.place, report.time.ms(), Used::away(rule.adds(&fill, report.contracts.count())), watch);
            match self.ledger.used(count.place).all.checked_sub(rule.limit) {
                Some(0) if rule.window.is_none() => passed.reached.push(count.place),
                Some(past @ 1..) => passed.past.push((count.place, past)),
                _ => {}
            }
        }
        self.trip(&fill, answer, passed);
    }

    /// Notes how levels stand that a fill has tripped.
    fn trip(&mut self, fill: &Offer, answer: &Answer, passed: &mut Passed) {
        let tripping: Vec<usize> = passed.tripping().collect();
        for (level, tripped) in [(level(fill.root, false), answer.root_trip), (0, answer.firm_trip)] {
            if tripped {
                self.stand(level, fill.time.ms(), &tripping, passed);
            }
        }
    }

    /// Notes how the library says that a level stands.
    fn stand(&mut self, level: usize, ms: u64, tripping: &[usize], passed: &mut Passed) {
        let marks = self.marks(level);
        passed.ended.extend(self.standing.take(&self.profile, level, ms, marks, tripping));
    }

    /// The library's marks of a level.
    pub fn marks(&self, level: usize) -> Marks {
        match level.checked_sub(1) {
            None => self.state.firm_marks(),
            Some(root) => Root::new(root as u64).map(|root| self.state.root_marks(root)).unwrap_or_default(),
        }
    }

    /// Tells what the counts have used as fills leave their windows up to a time after the clock; nothing may be passed after this.
    pub fn run_out(&mut self, ms: u64, watch: &mut dyn Watch) {
        self.ledger.advance(ms, watch);
    }

    /// What the desk reckons that a count has used at a time from the clock on.
    pub fn reckoned(&self, time: Time, count: &Count) -> Used {
        self.ledger.used_at(count.place, time.ms())
    }

    /// What of a rule's limit is used at a time in one of its counts, of which the library says that so much is left: past the limit the desk's reckoning
    /// says more than nothing left.
    pub fn used(&self, time: Time, rule: &Rule, count: &Count, left: u64) -> Used {
        let reckoned = self.reckoned(time, count);
        if rule.limit.saturating_sub(reckoned.all) == left {
            reckoned
        } else {
            Used::granted(rule.limit.saturating_sub(left))
        }
    }

    /// The places of the counts in which the desk reckons another amount left at the clock than the library answers.
    pub fn differences(&self) -> Vec<usize> {
        let clock = self.state.clock();
        let reckoned = |rule: &Rule, count: &Count| rule.limit.saturating_sub(self.reckoned(clock, count).all);
        let differs = |(rule, count): &(&Rule, &Count)| self.left(clock, count) != Ok(reckoned(rule, count));
        self.profile.each_count().filter(differs).map(|(_, count)| count.place).collect()
    }

    /// What the library says is left of a rule, by its number, at a time for one of a root's units.
    pub fn remaining(&self, time: Time, rule: u64, unit: UnitOfRoot) -> Result<u64, Refusal> {
        self.state.remaining(time, rule, unit)
    }

    /// What is left of a rule at a time, in one of its counts.
    pub fn left(&self, time: Time, count: &Count) -> Result<u64, Refusal> {
        self.remaining(time, count.rule as u64, count.asked_unit())
    }

    /// The least allowance, by the library's own numbers, of the rules that cover an offer: what it should grant.
    pub fn least_allowance(&self, offer: &Offer) -> u64 {
        let allowed = |(rule, count): (&Rule, &Count)| Some(rule.allowance(offer, self.left(offer.time, count).ok()?));
        self.profile.covering(offer).filter_map(allowed).min().unwrap_or(offer.contracts.count())
    }
}

/// The level for whose lock an event was rejected.
fn rejecting(answer: &Answer, root: Root) -> usize {
    level(root, answer.verdict == Verdict::FirmLocked)
}
