//! Orders sent away: what the desk says of each answer and refusal, and that its register is the library's.
mod common;
#[path = "common/days.rs"]
mod days;
use common::{event, profile, Dice};
use days::{day, sitting};
use desk::answers::answer;
use desk::replay::marks::Kind;
use desk::report::figures;
use desk::session::sitting::Sitting;
use desk::typed::command;
use desk::typed::names::Names;
use mbrumzheg::{Event, Refusal, Time};

/// What a line is answered.
fn said(sitting: &mut Sitting, line: &str) -> String {
    let names = Names { profile: &sitting.profile, clock: sitting.clock() };
    let event = names.event(&command::read(line).expect("a command")).expect("an event").unwrap_or_else(|why| panic!("{line}: {why}"));
    let passed = sitting.pass(event);
    assert_eq!(sitting.differences(), [], "{line}");
    answer::answer(sitting, &passed)
}

/// Says lines one after the other, and compares.
fn dialogue(sitting: &mut Sitting, turns: &[(&str, &str)]) {
    for (line, wanted) in turns {
        assert_eq!(said(sitting, line), *wanted, "{line}");
    }
}

#[test]
fn what_comes_back_is_counted_past_a_limit_and_under_a_lock() {
    let mut sitting = sitting("ABCD,abs_vol,XYZ,100\nABCD,rate_ntnl,,600,1000,T");
    dialogue(
        &mut sitting,
        &[
            ("away 0ms XYZ call front 2.00 250 7 3", "order 7 sent away: 250 of XYZ call front at $2.00, 3 reports allowed, 3 log places kept  [1 0 0 0 0 0]"),
            ("back 10ms 7 90", "90 of order 7 came back on XYZ call front, 160 contracts open and 2 reports left  [2 0 0 90 0 0]"),
            (
                "back 20ms 7 10",
                "10 of order 7 came back on XYZ call front, 150 contracts open and 1 report left; limit reached: rule 0 abs_vol 100 of XYZ call front; root XYZ tripped  [3 0 0 10 1 0]",
            ),
            ("away 21ms XYZ put front 1.00 5 8 1", "rejected, root XYZ is tripped (s: RiskMgmtSymLevel), order 8 not sent: 5 at $1.00  [4 0 2 0 0 0]"),
            (
                "back 30ms 7 150",
                "150 of order 7 came back on XYZ call front, 0 contracts open and 0 reports left; past the limit: rule 0 abs_vol 100 of XYZ call front by 150; root XYZ tripped  [5 0 0 150 1 0]",
            ),
            ("order 31ms XYZ reset t", "root XYZ unlocked, its counts stay; the order on XYZ may pass  [6 0 0 0 0 0]"),
            ("offer 32ms XYZ call front 1.00 5", "granted 0 of 5 at $1.00, cut by rule 0 abs_vol 100 of XYZ call front; root XYZ tripped  [7 0 0 0 1 0]"),
            ("close 40ms 7", "order 7 closed, 250 of 250 had come back  [8 0 0 0 0 0]"),
        ],
    );
    let day = day(&sitting, None);
    let first = &figures::limits(&sitting.profile, &day)[0];
    assert_eq!(
        (first.count.place, first.most, first.back, first.past(), first.share_words(), first.width()),
        (0, 250, 250, 150, "250.0%".into(), "100.0".into())
    );
    assert_eq!((day.sums.sent, day.sums.reports, day.sums.back, day.sums.back_notional, day.sums.closed), (1, 3, 250, 5_000_000, 1));
    assert_eq!((day.sums.granted, day.sums.notional, day.sums.trips, day.sums.rejected), (0, 0, 3, 1));
    assert_eq!((day.marks[0].count(Kind::Back), day.lanes[1].marks.count(Kind::Back), day.marks[4].count(Kind::Back)), (3, 3, 3));
    assert_eq!(day.orders.iter().map(|(order, closed)| (order.back(), *closed)).collect::<Vec<_>>(), [(250, Some(40))]);
    // once its window has passed, the firm's rule counts nothing of it
    let (clock, later) = (sitting.clock(), Time::from_ms(1_030).expect("a time"));
    let used = |time| sitting.reckoned(time, &sitting.profile.counts[4]);
    assert_eq!((used(clock).all, used(clock).away, used(later).all), (5_000_000, 5_000_000, 0));
}

#[test]
fn refusals_say_what_is_open_and_what_to_type() {
    let mut sitting = sitting("ABCD,abs_vol,XYZ,1000");
    let no_order = "refused with 18: an order of this identity is open already or, for a report or a closing, none is";
    dialogue(
        &mut sitting,
        &[
            ("close 0ms 7", &format!("{no_order}; no order is open: type away TIME ROOT call|put front|trailing PREMIUM CONTRACTS IDENTITY REPORTS  [1 18 0 0 0 0]")),
            ("away 0ms XYZ call front 2.00 50 7 2", "order 7 sent away: 50 of XYZ call front at $2.00, 2 reports allowed  [2 0 0 0 0 0]"),
            ("away 0ms XYZ put front 2.00 50 65535 1", "order 65535 sent away: 50 of XYZ put front at $2.00, 1 report allowed  [3 0 0 0 0 0]"),
            ("back 0ms 8 1", &format!("{no_order}; open: 7, 65535  [4 18 0 0 0 0]")),
            ("send 0ms XYZ call front 1 1 7 1", &format!("{no_order}; asked for: 1 at $1.00; order 7 has 50 contracts open and 2 reports left: close it first, or type another identity  [5 18 0 0 0 0]")),
            (
                "back 1ms 7 51",
                "refused with 19: the report has more contracts than are open, or the order has no report left; order 7 has 50 contracts open and 2 reports left  [6 19 0 0 0 0]",
            ),
            ("back 1ms 65535 1", "1 of order 65535 came back on XYZ put front, 49 contracts open and 0 reports left  [7 0 0 1 0 0]"),
            (
                "back 1ms 65535 1",
                "refused with 19: the report has more contracts than are open, or the order has no report left; order 65535 has 49 contracts open and 0 reports left  [8 19 0 0 0 0]",
            ),
            ("back 0ms 7 1", "refused with 12: the time is no time of the day, or earlier than the unit's clock; type 1ms or a later time  [9 12 0 0 0 0]"),
            ("close 2ms 65535", "order 65535 closed, 1 of 50 had come back  [10 0 0 0 0 0]"),
        ],
    );
    for identity in 100..163 {
        assert!(said(&mut sitting, &format!("away 3ms XYZ call front 1 1 {identity} 1")).starts_with("order "));
    }
    let full = said(&mut sitting, "away 3ms XYZ call front 1 1 9 1");
    assert!(full.starts_with("refused with 17: 64 orders sent away are open, so the register has no place for another; asked for: 1 at $1.00; type close TIME IDENTITY for one of 7, 100,"), "{full}");
    assert!(full.contains("109, 110 and 52 more  ["), "{full}");
}

#[test]
fn a_log_without_room_says_what_keeps_it() {
    let mut sitting = sitting("ABCD,rate_vol,XYZ,1000000,60000");
    let full = "refused with 15: fills inside the longest window and places kept for reports leave too few of the log's 512 places; \
                asked for: 1 at $1.00; type a time at which the longest window has passed over the oldest fill";
    for identity in 0..31 {
        let sent = said(&mut sitting, &format!("away 0ms XYZ call front 1 16 {identity} 16"));
        assert!(sent.contains(", 16 reports allowed, 16 log places kept  ["), "{sent}");
    }
    assert_eq!(sitting.away.reports(), 496);
    for _ in 0..16 {
        assert!(said(&mut sitting, "offer 1ms XYZ call front 1 1").starts_with("granted all 1"));
    }
    let kept = ", or close an order sent away, since 496 places are kept";
    assert_eq!(said(&mut sitting, "offer 1ms XYZ call front 1 1"), format!("{full}{kept}  [48 15 0 0 0 0]"));
    assert_eq!(said(&mut sitting, "away 1ms XYZ call front 1 1 99 1"), format!("{full}, allow fewer reports{kept}  [49 15 0 0 0 0]"));
    assert_eq!(said(&mut sitting, "close 1ms 3"), "order 3 closed, 0 of 16 had come back, 16 log places free again  [50 0 0 0 0 0]");
    assert!(said(&mut sitting, "offer 1ms XYZ call front 1 1").starts_with("granted all 1"));
    assert!(desk::answers::table::status(&sitting).expect("a status").contains("\n30 orders sent away and open, 480 log places kept\n  order 0: 0 of 16 came back on XYZ call front at $1.00, 16 contracts open and 16 reports left\n"));
}

#[test]
fn a_share_past_all_measure_fits_its_table() {
    let mut sitting = sitting("ABCD,abs_ntnl,XYZ,1");
    for turn in 0..20 {
        assert!(said(&mut sitting, &format!("away {turn}ms XYZ call front 10000 1000000 1 16")).starts_with("order 1 sent away"));
        for _ in 0..16 {
            assert!(said(&mut sitting, &format!("back {turn}ms 1 62500")).starts_with("62,500 of order 1 came back"));
        }
        assert!(said(&mut sitting, &format!("close {turn}ms 1")).starts_with("order 1 closed, 1,000,000 of 1,000,000"));
        assert!(said(&mut sitting, &format!("order {turn}ms XYZ reset t")).starts_with("root XYZ unlocked"));
    }
    let used = sitting.reckoned(sitting.clock(), &sitting.profile.counts[0]);
    assert_eq!((used.all, used.away), (2_000_000_000_000_000, 2_000_000_000_000_000));
    let table = desk::answers::table::rules(&sitting, sitting.clock(), desk::typed::shown::Shown::All).expect("a table");
    assert!(table.lines().all(|line| line.chars().count() <= 80) && table.contains(">999%"), "{table}");
}

#[test]
fn a_total_is_held_where_the_library_holds_it() {
    let mut sitting = sitting("ABCD,abs_ntnl,XYZ,100000000000");
    let event = |line: &str, sitting: &Sitting| {
        let names = Names { profile: &sitting.profile, clock: sitting.clock() };
        names.event(&command::read(line).expect("a command")).expect("an event").expect("its words")
    };
    let lines = ["away 0ms XYZ call front 10000 1000000 1 1", "back 0ms 1 1000000", "close 0ms 1", "order 0ms XYZ reset t"];
    let events = lines.map(|line| event(line, &sitting));
    // each time 10,000 dollars for a million contracts come back
    for turn in 1..=10_003u64 {
        let trips: Vec<bool> = events.iter().map(|event| sitting.pass(*event).answer.expect("not refused").root_trip).collect();
        assert_eq!(trips, [false, turn >= 10, false, false], "turn {turn}");
        let used = sitting.reckoned(sitting.clock(), &sitting.profile.counts[0]);
        assert_eq!((used.all, used.away), ((turn * 100_000_000_000_000).min(1_000_000_000_000_000_000), used.all), "turn {turn}");
    }
    assert_eq!(sitting.differences(), []);
    // the page's numbers are as large
    let day = day(&sitting, None);
    let json = desk::report::export::json(&sitting.profile, &day, &desk::report::Made::at_the_desk(&sitting));
    assert!(json.contains("\"most_used\":1000000000000000000,") && json.contains("\"most_past_limit\":999000000000000000"), "{json}");
}

#[test]
fn the_register_is_the_librarys() {
    let mut met = [0; 20];
    for seed in 0..300 {
        let mut dice = Dice::new(seed);
        let mut sitting = sitting(&profile(&mut dice));
        for _ in 0..80 {
            let next = event(&mut dice, sitting.clock().ms(), sitting.state().root_count());
            let is_late = next.time() < sitting.clock();
            let order = |identity| sitting.away.order(identity);
            // what the desk's register says will happen to it
            let wanted = match next {
                Event::Report(_) | Event::Close(_) if is_late => Some(Refusal::BadTime),
                Event::Report(report) => match order(report.identity) {
                    None => Some(Refusal::IdentityClash),
                    Some(order) if report.contracts.count() > order.open || order.reports == 0 => Some(Refusal::OverReported),
                    Some(_) => None,
                },
                Event::Close(closing) => order(closing.identity).is_none().then_some(Refusal::IdentityClash),
                Event::Send(sending) if !is_late && sending.root.number() < sitting.state().root_count() => {
                    order(sending.identity).is_some().then_some(Refusal::IdentityClash)
                }
                _ => {
                    sitting.pass(next);
                    continue;
                }
            };
            let passed = sitting.pass(next);
            assert_eq!(passed.answer.err(), wanted, "seed {seed}: {next:?}");
            met[wanted.map_or(0, |refusal| refusal.number() as usize)] += 1;
            let (Event::Report(report), Ok(answer)) = (next, passed.answer) else { continue };
            assert_eq!((answer.grant, answer.verdict.passes()), (report.contracts.count(), true));
            let of_firm = |place: &usize| sitting.profile.counts[*place].level() == 0;
            let tripping: Vec<usize> = passed.tripping().collect();
            assert_eq!(
                (answer.firm_trip, answer.root_trip),
                (tripping.iter().any(of_firm), tripping.iter().any(|place| !of_firm(place))),
                "seed {seed}: {next:?}"
            );
            met[1] += usize::from(!passed.past.is_empty());
        }
    }
    assert!(met[0] > 1_000 && met[1] > 100 && met[12] > 20 && met[18] > 500 && met[19] > 100, "{met:?}");
}
