//! Each row of the refusal table for each call, on both programs.
//! Each line runs on both, which must agree in the answer and in the whole memory; the row is what document 01 says.

use native::both::Both;
use second::place::*;

/// Good calls of each kind but Arm, Clear and Text.
const GOOD: [&str; 9] = [
    "order 50 0 0",
    "lockout 50 0 0",
    "offer 50 0 0 1 1",
    "send 50 0 0 1 1 7 1",
    "report 50 7 1",
    "close 50 7",
    "remaining 50 0 0",
    "status",
    "profile 14",
];
/// The same with every number wrong.
const BAD: [&str; 8] = [
    "order 86400000 64 7",
    "lockout 86400000 2 64",
    "offer 86400000 64 4 0 0",
    "send 86400000 64 4 0 0 65536 0",
    "report 86400000 65536 0",
    "close 86400000 65536",
    "remaining 86400000 256 4",
    "profile 0",
];

#[test]
fn refusal_1_short_memory_and_short_room() {
    for length in [0, 1, ROOTS, NUMBERS - 1] {
        for both in [&mut Both::default(), &mut Both::armed("A,abs_vol,Q,5")] {
            both.run(&format!("length {length}"));
            both.refuses(1, &GOOD).refuses(1, &BAD).refuses(1, &["arm A,abs_vol,Q,5", "arm", "clear"]);
            both.says("text 1 20", &[0, 20]);
        }
    }
    Both::default().refuses(1, &["text 1 19", "text 2 19", "text 1 0", "text 2 1"]);
    let mut both = Both::armed("A,abs_vol,Q,005");
    both.says("profile 13", &[1, 14]).says("profile 0", &[1, 14]).says("profile 14", &[0, 14]).says("profile 65536", &[0, 14]);
}

#[test]
fn refusal_2_unsound_memory() {
    let damaged = [
        (MARK, 2),
        (CLOCK, 86_400_000),
        (RULE_COUNT, 0),
        (TOTALS, 1_000_000_000_000_000_001),
        (REGISTER, 1),
        (REGISTER + 1, 1),
        (FIRM_TRIPPED, 2),
        (ROOTS_TRIPPED, 2),
        (NUMBERS - 1, 1u64),
    ];
    for (place, number) in damaged {
        let mut both = Both::armed("A,abs_vol,Q,5");
        both.put(place, number);
        both.refuses(2, &GOOD).refuses(2, &BAD).refuses(3, &["arm A,abs_vol,Q,5"]);
        both.says("clear", &[0]).refuses(4, &["status"]);
    }
}

#[test]
fn refusal_3_arming_twice() {
    Both::armed("A,abs_vol,Q,5").refuses(3, &["arm A,abs_vol,Q,5", "arm", "arm x"]);
    let mut both = Both::default();
    both.put(MARK, u64::MAX);
    both.refuses(3, &["arm A,abs_vol,Q,5", "arm"]);
}

#[test]
fn refusal_4_not_armed() {
    let mut both = Both::default();
    both.refuses(4, &GOOD).refuses(4, &BAD);
    both.put(RULE_COUNT, 999);
    both.refuses(4, &GOOD).says("text 2 20", &[0, 19]).says("arm A,abs_vol,Q,5", &[0, 0, 0x41, 1, 1]).says("status", &[0, 0, 0, 0, 64]);
}

#[test]
fn refusal_5_length_of_the_profile() {
    let rule = "A,abs_vol,Q,5,";
    let long = |bytes: usize| format!("arm {rule}{}", "x".repeat(bytes - rule.len()));
    Both::default().refuses(5, &["arm", &long(65_537), &long(70_000)]).says(&long(65_536), &[0, 0, 0x41, 1, 1]);
}

#[test]
fn refusals_6_to_11_with_their_lines() {
    let good = "A,abs_vol,Q,5\\n";
    let many = |line: &str, times: usize| line.repeat(times);
    let roots = |count: usize| (0..count).map(|root| format!("A,abs_vol,R{root},5\\n")).collect::<String>();
    let rules = |count: usize| (0..count).map(|rule| format!("A,abs_vol,R{},5\\n", rule % 60)).collect::<String>();
    let cases = [
        (6, 1, "A,abs_vol,Q".into()),
        (6, 1, "A,abs_vol,Q,5,,,,,".into()),
        (6, 2, format!("{good}\\n")),
        (6, 1, "\\n".into()),
        (6, 1, "A,abs_volume,Q,5".into()),
        (6, 1, "ABCDE,abs_vol,Q,5".into()),
        (6, 1, ",abs_vol,Q,5".into()),
        (6, 1, "a,abs_vol,Q,5".into()),
        (6, 1, "A,abs_vol,ABCDEFG,5".into()),
        (6, 1, "A,abs_vol,Q,".into()),
        (6, 1, "A,abs_vol,Q,0000000000005".into()),
        (6, 1, "A,rate_vol,Q,5,1e3".into()),
        (6, 1, "A,abs_vol,Q,5,,,X,F".into()),
        (6, 1, "A,abs_vol,Q,5,,,C,F\\r".into()),
        (7, 2, format!("{good}B,abs_vol,Q,5")),
        (7, 2, format!("{good}B,abs_vol,Q,0,,T,C")),
        (8, 1, "A,abs_vol,Q,0".into()),
        (8, 1, "A,abs_vol,Q,1000000001".into()),
        (8, 1, "A,abs_ntnl,Q,100000000001".into()),
        (8, 1, "A,abs_count,Q,1000000001,,T".into()),
        (8, 1, "A,rate_vol,Q,5,86400001".into()),
        (9, 1, "A,abs_vol,Q,5,,T".into()),
        (9, 1, "A,abs_vol,,5".into()),
        (9, 1, "A,abs_vol,,5,,t,C".into()),
        (10, 1, "A,abs_vol,Q,5,,,C".into()),
        (10, 1, "A,abs_vol,Q,5,,,,F".into()),
        (10, 1, "A,abs_vol,,5,,T,C,F".into()),
        (11, 7, many(good, 7)),
        (11, 7, many("A,abs_vol,Q,5,,,P,T\\n", 6) + good),
        (11, 11, many("A,abs_vol,,5,,T\\n", 11)),
        (11, 65, roots(65)),
        (11, 257, rules(257)),
    ];
    for (refusal, line, text) in cases {
        let row = Both::default().run(&format!("arm {text}"));
        assert_eq!(row, [refusal, line, 0, 0, 0], "{text}");
    }
    Both::armed(&rules(256));
    Both::armed(&roots(64));
    Both::armed(&(many("A,abs_vol,,5,,T\\n", 10) + &many(good, 6)));
}

#[test]
fn refusal_12_time() {
    let mut both = Both::armed("A,abs_vol,Q,5");
    both.says("order 50 0 0", &[0]);
    for time in [0, 49, 86_400_000, u64::MAX] {
        let lines = [
            format!("order {time} 64 7"),
            format!("lockout {time} 2 64"),
            format!("offer {time} 64 4 0 0"),
            format!("send {time} 64 4 0 0 65536 0"),
            format!("report {time} 65536 0"),
            format!("close {time} 65536"),
            format!("remaining {time} 256 4"),
        ];
        both.refuses(12, &lines.each_ref().map(String::as_str));
    }
    both.says("order 50 0 0", &[0]).says("order 86399999 0 0", &[0]);
}

#[test]
fn refusal_13_numbers_not_known() {
    let mut both = Both::armed("A,abs_vol,Q,5");
    both.refuses(
        13,
        &[
            "order 5 1 0",
            "order 5 0 7",
            "order 5 0 18446744073709551615",
            "order 5 1 4",
            "order 5 18446744073709551615 0",
            "lockout 5 0 1",
            "lockout 5 1 1",
            "lockout 5 2 0",
        ],
    );
    both.refuses(
        13,
        &["offer 5 1 0 0 0", "offer 5 0 4 1 1", "offer 5 64 0 1 1", "remaining 5 1 0", "remaining 5 256 0", "remaining 5 0 4"],
    );
    both.refuses(13, &["text 0 20", "text 3 20", "text 0 0", "text 18446744073709551615 19"]);
    Both::armed("A,abs_vol,,5,,T")
        .refuses(13, &["order 0 0 0", "order 0 0 2", "offer 0 0 0 1 1", "lockout 0 0 0"])
        .says("lockout 0 1 0", &[0]);
}

#[test]
fn refusal_14_premium_and_contracts_also_under_a_lock() {
    let lines = ["offer 5 0 0 0 1", "offer 5 0 0 100000001 1", "offer 5 0 0 1 0", "offer 5 0 0 1 1000001"];
    let mut both = Both::armed("A,abs_vol,Q,5");
    both.refuses(14, &lines).says("lockout 5 0 0", &[0]).refuses(14, &lines).says("offer 5 0 0 100000000 1000000", &[0, 2]);
}

#[test]
fn refusal_15_log_full_exactly_inside_the_longest_window() {
    let mut both = Both::armed("A,rate_vol,Q,1000000000,100\\nA,rate_count,R,512,1000");
    for _ in 0..512 {
        both.says("offer 7 0 0 1 1", &[0, 0, 1]);
    }
    both.refuses(15, &["offer 7 0 0 1 1", "offer 1006 0 0 1 1", "offer 1006 1 0 1 1"]).refuses(14, &["offer 8 0 0 0 1"]);
    both.says("order 1006 0 1", &[0]).refuses(15, &["offer 1006 0 0 1 1"]).says("offer 1007 0 0 1 1", &[0, 0, 1]);
}
