//! What the desk says of resets is what the library does: whose counts are zeroed, whose trip and lockout are lifted, and that all else stays.
mod common;
#[path = "common/days.rs"]
mod days;
use common::{event, profile, Dice};
use days::{day, sitting};
use desk::replay::marks::Kind;
use desk::session::resets::{lifts, zeroes};
use desk::session::sitting::Sitting;
use mbrumzheg::{Event, Reset, Time};

/// What is left in each count at a time, and each level's marks.
fn standing(sitting: &Sitting, time: Time) -> (Vec<u64>, Vec<(bool, bool)>) {
    let left = sitting.profile.counts.iter().map(|count| sitting.left(time, count).expect("a count")).collect();
    let marks = (0..=sitting.profile.roots.len()).map(|level| sitting.marks(level));
    (left, marks.map(|marks| (marks.tripped, marks.locked_by_user)).collect())
}

#[test]
fn the_library_zeroes_and_lifts_what_the_desk_says() {
    // how often each reset met a lock that it lifts, one that it leaves, counts that it zeroes and counts that it leaves
    let mut met = [[0; 4]; 7];
    for seed in 0..400 {
        let mut dice = Dice::new(seed);
        let mut sitting = sitting(&profile(&mut dice));
        for _ in 0..60 {
            let next = event(&mut dice, sitting.clock().ms(), sitting.state().root_count());
            let (before, is_at_stake) = match next {
                Event::Order { time, .. } if time >= sitting.clock() => (standing(&sitting, time), true),
                _ => (standing(&sitting, sitting.clock()), false),
            };
            let passed = sitting.pass(next);
            let (Event::Order { time, root, reset }, Ok(_), true) = (next, passed.answer, is_at_stake) else { continue };
            let (left, marks) = standing(&sitting, time);
            let met = &mut met[reset.number() as usize];
            for (level, (before, after)) in before.1.iter().zip(&marks).enumerate() {
                let is_lifted = lifts(reset).of(root).contains(&level);
                assert_eq!(*after, if is_lifted { (false, false) } else { *before }, "seed {seed}: {next:?} at level {level}");
                met[usize::from(!is_lifted)] += u64::from(*before != (false, false));
            }
            for (count, (before, after)) in sitting.profile.counts.iter().zip(before.0.iter().zip(&left)) {
                let is_zeroed = zeroes(reset).of(root).contains(&count.level());
                let limit = sitting.profile.rules[count.rule].limit;
                assert_eq!(*after, if is_zeroed { limit } else { *before }, "seed {seed}: {next:?} in {count:?}");
                met[2 + usize::from(!is_zeroed)] += u64::from(*before != limit);
            }
        }
    }
    for reset in Reset::ALL {
        let [lifted, left_locked, zeroed, left_counted] = met[reset.number() as usize];
        assert_eq!((lifted > 0, zeroed > 0), (reset != Reset::None, [Reset::Symbol, Reset::Firm, Reset::Both].contains(&reset)), "{reset}");
        assert!(left_locked > 10 && left_counted > 10, "{reset}: {met:?}");
    }
}

#[test]
fn what_was_only_unlocked_trips_again() {
    let mut sitting = sitting("ABCD,abs_vol,XYZ,100\nABCD,abs_vol,,150,,T");
    let mut line = |line: &str| {
        let names = desk::typed::names::Names { profile: &sitting.profile, clock: sitting.clock() };
        let event = names.event(&desk::typed::command::read(line).expect("a command")).expect("an event").expect("its words");
        let passed = sitting.pass(event);
        desk::answers::answer::answer(&sitting, &passed)
    };
    assert!(line("offer 0ms XYZ call front 1.00 120").ends_with("[1 0 0 100 1 0]"));
    assert_eq!(line("order 1ms XYZ reset t"), "root XYZ unlocked, its counts stay; the order on XYZ may pass  [2 0 0 0 0 0]");
    assert!(line("offer 2ms XYZ call front 1.00 1")
        .starts_with("granted 0 of 1 at $1.00, cut by rule 0 abs_vol 100 of XYZ call front; root XYZ tripped"));
    assert_eq!(
        line("order 3ms XYZ reset te"),
        "root XYZ and firm ABCD unlocked, their counts stay; the order on XYZ may pass  [4 0 0 0 0 0]"
    );
    // the firm has 50 left, and another unit of the root 100
    assert!(line("offer 4ms XYZ put front 1.00 60")
        .starts_with("granted 50 of 60 at $1.00, cut by rule 1 abs_vol 150 of firm ABCD; firm ABCD tripped"));
    assert!(line("order 5ms XYZ reset t").starts_with("root XYZ unlocked, its counts stay; rejected, firm ABCD is tripped"));
    assert_eq!(line("order 6ms XYZ reset e"), "firm ABCD unlocked, its counts stay; the order on XYZ may pass  [7 0 0 0 0 0]");
    assert_eq!(line("order 7ms XYZ reset symbol"), "root XYZ reset; the order on XYZ may pass  [8 0 0 0 0 0]");
    assert!(!sitting.marks(1).locked() && sitting.left(Time::from_ms(7).expect("a time"), &sitting.profile.counts[0]) == Ok(100));
    // a page marks what unlocks apart from what resets
    let day = day(&sitting, None);
    let marks = |level: usize| [Kind::Reset, Kind::Unlock].map(|kind| day.lanes[level].marks.count(kind));
    assert_eq!((marks(0), marks(1)), ([0, 2], [1, 3]));
}
