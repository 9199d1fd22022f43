//! The comparison itself is tried: against a wrong version of the second program it must find a difference and make its script short.

use native::pair::{as_it_is, first_difference, Difference, Left, Twist};
use native::run::{report, run, End};
use native::scripts::{parse, print, Kind, Step};
use second::account::{FIGURES, FILLS, FIRM_ROW};
use second::place::{CLOCK, FIRM_TRIPPED};

/// In how many days a wrong version has to show.
const DAYS: u64 = 500;

/// The shortest script that shows how the wrong version differs, and the difference.
fn found(twist: Twist) -> (String, Difference) {
    let script = run(End::Days(DAYS), 7, twist).script.expect("a difference");
    let text = print(&script);
    assert_eq!(parse(&text).expect("a script that can be run again"), script);
    assert_eq!(first_difference(&script, as_it_is), None, "the second program as it is does not differ");
    let (place, difference) = first_difference(&script, twist).expect("the difference again");
    assert_eq!(place + 1, script.len(), "the last step shows the difference");
    assert_eq!(report(&script, twist), format!("{text}# {difference}\n"));
    (text, difference)
}

/// Grants one contract too many where a firm rule alone cuts.
fn grants_too_much(step: &Step, Left { row, .. }: Left) {
    if step.kind == Kind::Offer && row[3..] == [0, 1] && row[2] > 0 && row[2] < step.numbers[4] {
        row[2] += 1;
    }
}

#[test]
fn a_wrong_grant_is_found_and_made_short() {
    let (text, difference) = found(grants_too_much);
    let Difference::Answer { library: [0, 0, grant, 0, 1], second: [0, 0, wrong, 0, 1] } = difference else { panic!("{difference}") };
    assert_eq!(wrong, grant + 1);
    let lines: Vec<&str> = text.lines().collect();
    assert!((2..=3).contains(&lines.len()), "{text}");
    assert!(lines[0].starts_with("arm ") && lines[0].len() < 60, "{text}");
    assert!(lines[1..].iter().all(|line| line.starts_with("offer 0 0 0 ") && line.len() < 20), "{text}");
}

/// Leaves the clock one too late after a reset of both levels past the first second.
fn moves_the_clock(step: &Step, Left { second, row, .. }: Left) {
    if step.kind == Kind::Order && row[0] == 0 && step.numbers[2] == 3 && step.numbers[0] > 1_000 {
        second.numbers_mut()[CLOCK] += 1;
    }
}

#[test]
fn a_wrong_number_in_memory_is_found_and_made_short() {
    let (text, difference) = found(moves_the_clock);
    assert_eq!(difference, Difference::Memory { place: CLOCK, library: 1_001, second: 1_002 });
    let lines: Vec<&str> = text.lines().collect();
    assert_eq!(lines.len(), 2, "{text}");
    assert_eq!(lines[1], "order 1001 0 3");
}

/// Counts a fill of one millisecond too long ago in Remaining.
fn counts_too_long(step: &Step, Left { second, row, .. }: Left) {
    let [time, rule, ..] = step.numbers;
    let Some(armed) = &second.unit().armed else { return };
    let window = armed.profile.rules.get(rule as usize).and_then(|rule| rule.window);
    if step.kind == Kind::Remaining && row[0] == 0 && window.is_some_and(|window| armed.log.iter().any(|entry| entry.time + window == time))
    {
        row[1] = 0;
    }
}

#[test]
fn times_that_hang_together_are_lowered_together() {
    let (text, difference) = found(counts_too_long);
    let lines: Vec<&str> = text.lines().collect();
    assert_eq!(lines.len(), 3, "{text}");
    assert!(lines[1] == "offer 0 0 0 1 1" && lines[2].starts_with("remaining 1"), "{text}");
    assert!(matches!(difference, Difference::Answer { library: [0, _, 0, 0, 0], second: [0, 0, 0, 0, 0] }), "{difference}");
}

/// Takes a state whose firm mark is 2 for a sound one.
fn overlooks_a_mark(step: &Step, Left { second, row, .. }: Left) {
    if step.kind == Kind::Status && row[0] == 2 && second.numbers()[FIRM_TRIPPED] == 2 {
        row[0] = 0;
    }
}

#[test]
fn a_wrong_judgement_of_damage_is_found_and_made_short() {
    let (text, difference) = found(overlooks_a_mark);
    assert_eq!(difference, Difference::Answer { library: [2, 0, 0, 0, 0], second: [0; 5] });
    let lines: Vec<&str> = text.lines().collect();
    assert!(lines.len() <= 3 && lines.contains(&&format!("damage {FIRM_TRIPPED} 2")[..]), "{text}");
    assert_eq!(*lines.last().expect("a step"), "status");
}

/// Leaves a zero after the text of a profile out.
fn ends_the_text_with_zero(step: &Step, Left { row, room, .. }: Left) {
    if let (Kind::Profile, 0, Some(past)) = (step.kind, row[0], room.get_mut(row[1] as usize)) {
        *past = 0;
    }
}

#[test]
fn a_wrong_byte_past_a_text_is_found_and_made_short() {
    let (text, difference) = found(ends_the_text_with_zero);
    let Difference::Room { library, second } = difference else { panic!("{difference}") };
    assert!(library[..library.len() - 1] == second[..library.len() - 1] && second.last() == Some(&0), "{text}");
    let lines: Vec<&str> = text.lines().collect();
    assert!(lines.len() == 2 && lines[0].starts_with("arm ") && lines[0].len() < 30, "{text}");
    assert_eq!(lines[1], format!("profile {}", library.len()));
}

/// Takes room for a profile out that is one byte short for enough.
fn takes_too_little_room(step: &Step, Left { row, .. }: Left) {
    if step.kind == Kind::Profile && row[0] == 1 && row[1] == step.numbers[0] + 1 {
        row[0] = 0;
    }
}

#[test]
fn a_wrong_refusal_for_room_is_found_and_made_short() {
    let (text, difference) = found(takes_too_little_room);
    let Difference::Answer { library: [1, size, 0, 0, 0], second: [0, answered, 0, 0, 0] } = difference else { panic!("{difference}") };
    assert_eq!(size, answered);
    let lines: Vec<&str> = text.lines().collect();
    assert!(lines.len() == 2 && lines[0].starts_with("arm ") && lines[0].len() < 30, "{text}");
    assert_eq!(lines[1], format!("profile {}", size - 1));
}

/// Counts a cut to nothing as a fill.
fn fills_with_nothing(step: &Step, Left { account, row, .. }: Left) {
    if step.accounted && step.kind == Kind::Offer && row[..3] == [0; 3] {
        account[FIGURES * FIRM_ROW + FILLS] += 1;
    }
}

#[test]
fn a_wrong_figure_is_found_and_made_short() {
    let (text, difference) = found(fills_with_nothing);
    assert_eq!(difference, Difference::Account { place: FIGURES * FIRM_ROW + FILLS, library: 0, second: 1 });
    let lines: Vec<&str> = text.lines().collect();
    assert!((2..=3).contains(&lines.len()) && lines[0].starts_with("arm "), "{text}");
    assert!(lines[lines.len() - 1].starts_with("accounted offer 0 0 "), "{text}");
}

/// Lets a figure pass the most by one.
fn passes_by_one(_: &Step, Left { row, .. }: Left) {
    if row[0] == 21 {
        row[0] = 0;
    }
}

#[test]
fn a_wrong_refusal_for_a_figure_is_found_and_made_short() {
    let (text, difference) = found(passes_by_one);
    assert_eq!(difference, Difference::Answer { library: [21, 0, 0, 0, 0], second: [0; 5] });
    let lines: Vec<&str> = text.lines().collect();
    assert!(lines.len() == 3 && lines.iter().any(|line| line.ends_with(" 1000000000000000000")), "{text}");
}

#[test]
fn a_script_is_read_as_it_was_written() {
    let text = "length 2764\narm A,abs_vol,Q,5,\\x00\\xff\\\\\\'\\\"\\r\\t,x\\n\narm\nclear\norder 20 0 1\nlockout 1 0 2\n\
                offer 10 0 0 70000 200\nsend 10 0 3 70000 200 65535 16\nreport 11 65535 7\nclose 12 65535\nremaining 10 0 3\nstatus\ntext 1 20\nprofile 40\ndamage 5 18446744073709551615\n\
                accounted order 20 0 1\naccounted send 10 0 3 70000 200 65535 16\naccount-length 519\naccount-damage 519 7\n";
    let script = parse(text).expect("a script");
    assert_eq!(script[1].profile, b"A,abs_vol,Q,5,\x00\xff\\'\"\r\t,x\n");
    assert_eq!(print(&script), text);
    for bad in [
        "offer 1 2 3 4",
        "offer 1 2 3 4 5 6",
        "order 1 -2 3",
        "orders 1 2 3",
        "arm \\",
        "arm \\xg0",
        "status 1",
        "profile",
        "accounted status",
        "accounted",
        "account-length",
    ] {
        assert!(parse(bad).is_err(), "{bad}");
    }
}
