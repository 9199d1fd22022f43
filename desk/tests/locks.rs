//! Locks, trips and times of random days: since when, by which rule and unit, and what was rejected meanwhile.
mod common;
#[path = "common/days.rs"]
mod days;
use common::{event, profile, Dice};
use days::{day, sitting};
use desk::library::piece::Piece;
use desk::replay::marks::Kind;
use mbrumzheg::{Event, Level, Reset, Time, Verdict};

#[test]
fn the_page_marks_what_happened() {
    let mut made = sitting("ABCD,abs_vol,XYZ,1000\nABCD,abs_vol,QQQ,5");
    let mut dice = Dice::new(1);
    for _ in 0..200 {
        let next = event(&mut dice, made.clock().ms(), 2);
        made.pass(next);
    }
    let day = day(&made, None);
    let count = |kind| day.lanes.iter().map(|lane| lane.marks.count(kind)).sum::<u64>();
    let sums = &day.sums;
    assert_eq!((count(Kind::Cut), count(Kind::Trip), count(Kind::Rejected)), (sums.cuts, sums.trips, sums.rejected));
    assert!(count(Kind::Back) == sums.reports && sums.reports > 0 && count(Kind::Unlock) > 0);
    assert!(sums.cuts > 0 && sums.trips >= sums.cuts && sums.rejected > 0 && count(Kind::Reset) > 0 && count(Kind::Lockout) > 0);
    for lane in &day.lanes {
        assert!(lane.locked.iter().all(|(from, to)| from <= to));
    }
}

#[test]
fn locks_have_their_begin_their_cause_and_their_rejections() {
    let (mut tripped, mut by_hand, mut both) = (0, 0, 0);
    for seed in 0..200 {
        let mut dice = Dice::new(seed);
        let mut sitting = sitting(&profile(&mut dice));
        // since when each level is locked, by the library's marks after each event alone
        let mut since = vec![None; sitting.profile.roots.len() + 1];
        let mut rejected = 0;
        for _ in 0..60 {
            let next = event(&mut dice, sitting.clock().ms(), sitting.state().root_count());
            let passed = sitting.pass(next);
            let Ok(answer) = passed.answer else { continue };
            rejected += u64::from(answer.verdict != Verdict::Free);
            for (level, since) in since.iter_mut().enumerate() {
                let marks = sitting.marks(level);
                *since = marks.locked().then(|| since.unwrap_or(next.time().ms()));
                let lock = sitting.standing.lock(level);
                assert_eq!(lock.map(|lock| lock.since), *since, "seed {seed}");
                let Some(lock) = lock else { continue };
                assert_eq!((!lock.tripped.is_empty(), lock.by_hand.is_some()), (marks.tripped, marks.locked_by_user));
                let counts = lock.tripped.iter().flat_map(|(_, counts)| counts).map(|place| &sitting.profile.counts[*place]);
                assert!(counts.clone().all(|count| sitting.standing.tripped(count.place).is_some()));
                assert!(!marks.tripped || counts.count() > 0, "a trip has a rule and a unit");
                tripped += u64::from(marks.tripped);
                by_hand += u64::from(marks.locked_by_user);
                both += u64::from(marks.tripped && marks.locked_by_user);
            }
            // a count is called tripped only where its own trip locked its level
            for count in sitting.profile.counts.iter().filter(|count| sitting.standing.tripped(count.place).is_some()) {
                let named = sitting.standing.lock(count.level()).map_or(0, |lock| {
                    lock.tripped
                        .iter()
                        .filter(|(at, counts)| counts.contains(&count.place) && sitting.standing.tripped(count.place) == Some(*at))
                        .count()
                });
                assert_eq!(named, 1, "seed {seed}: {count:?} is named once, however often it trips");
            }
        }
        let day = day(&sitting, None);
        let counted: u64 = day.lanes.iter().map(|lane| lane.rejected[0] + lane.rejected[1]).sum();
        assert_eq!((counted, day.sums.rejected), (rejected, rejected), "every rejection is counted for one lock");
    }
    assert!(tripped > 500 && by_hand > 500 && both > 20, "{tripped} tripped, {by_hand} by hand, {both} both");
}

#[test]
fn the_times_of_a_page_are_those_of_events_that_were_not_refused() {
    let mut made = sitting("ABCD,abs_vol,XYZ,1000");
    let order = |ms: u64| Event::Lockout { time: Time::from_ms(ms).expect("a time"), level: Level::Firm };
    made.pass_piece(&Piece::of_bytes(&[0xFF; 16]));
    made.pass(order(34_200_000));
    // earlier than the clock, and refused
    made.pass(order(5));
    made.pass(order(34_200_900));
    made.pass(Event::Order { time: Time::LAST, root: mbrumzheg::Root::new(63).expect("a root"), reset: Reset::None });
    let day = day(&made, None);
    assert_eq!(day.times, Some((34_200_000, 34_200_900)));
    assert_eq!(day.curves.scale.map(|scale| (scale.first, scale.width, scale.count(34_200_900))), Some((34_200_000, 1, 901)));
    assert_eq!((day.sums.records, day.sums.refused, day.sums.faulty), (5, 2, 1));
}
