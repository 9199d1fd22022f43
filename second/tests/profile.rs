//! Profile texts: fields, refusals 5 to 11 with their lines, and readings 1 to 6.

mod common;

use common::profile::{good, refused};
use second::profile::{Level, Measure};

#[test]
fn reads_all_fields() {
    let profile = good(b"AB1,rate_ntnl,XYZ,1000,60000\nAB1,abs_vol,XYZ,7,,,P,F\nAB1,rate_count,,10,1000,T\nAB1,abs_ntnl,Q2,1\n");
    assert_eq!(profile.firm, b"AB1");
    assert_eq!(profile.firm_number(), (0x41 * 256 + 0x42) * 256 + 0x31);
    assert_eq!(profile.roots, [b"XYZ".to_vec(), b"Q2".to_vec()]);
    let rules: Vec<_> = profile.rules.iter().map(|rule| (rule.measure, rule.window, rule.limit, rule.level)).collect();
    let root = |root, unit| Level::Root { root, unit };
    assert_eq!(
        rules,
        [
            (Measure::Notional, Some(60_000), 10_000_000, root(0, None)),
            (Measure::Volume, None, 7, root(0, Some(2))),
            (Measure::Count, Some(1_000), 10, Level::Firm),
            (Measure::Notional, None, 10_000, root(1, None)),
        ]
    );
}

#[test]
fn reads_the_six_types() {
    let types = [
        ("rate_ntnl", Measure::Notional, true),
        ("rate_vol", Measure::Volume, true),
        ("rate_count", Measure::Count, true),
        ("abs_ntnl", Measure::Notional, false),
        ("abs_vol", Measure::Volume, false),
        ("abs_count", Measure::Count, false),
    ];
    for (name, measure, is_rate) in types {
        let rule = &good(format!("A,{name},X,1,500").as_bytes()).rules[0];
        assert_eq!((rule.measure, rule.window), (measure, is_rate.then_some(500)));
    }
}

#[test]
fn reads_the_four_units() {
    for (fields, unit) in [("C,F", 0), ("C,T", 1), ("P,F", 2), ("P,T", 3)] {
        let rule = &good(format!("A,abs_vol,X,1,,,{fields}").as_bytes()).rules[0];
        assert_eq!(rule.level, Level::Root { root: 0, unit: Some(unit) });
    }
}

#[test]
fn an_absent_field_reads_as_empty() {
    let four = good(b"A,abs_vol,X,1");
    for tail in ["", ",", ",,", ",,,", ",,,,"] {
        assert_eq!(good(format!("A,abs_vol,X,1{tail}").as_bytes()), four);
    }
}

#[test]
fn refusal_5_length() {
    refused(b"", 5, 0);
    let mut text = b"A,abs_vol,X,1,".to_vec();
    text.resize(65_536, b'x');
    good(&text);
    text.push(b'x');
    refused(&text, 5, 0);
}

#[test]
fn refusal_6_number_of_fields() {
    refused(b"A,abs_vol,X", 6, 1);
    refused(b"A", 6, 1);
    refused(b"A,abs_vol,X,1,,,,,", 6, 1);
    refused(b"A,abs_vol,X,1,,,,,x", 6, 1);
}

#[test]
fn refusal_6_firm_and_root() {
    for firm in ["", "ABCDE", "abc", "A B", "A-", "A\r"] {
        refused(format!("{firm},abs_vol,X,1").as_bytes(), 6, 1);
    }
    for root in ["ABCDEFG", "xyz", "X Y", "X.", "\r", "\u{c4}"] {
        refused(format!("A,abs_vol,{root},1").as_bytes(), 6, 1);
    }
    good(b"A1Z9,abs_vol,ABC123,1");
}

#[test]
fn refusal_6_type() {
    for kind in ["", "rate_ntrl", "rate", "abs_vol ", "ABS_VOL", "abs_volume"] {
        refused(format!("A,{kind},X,1").as_bytes(), 6, 1);
    }
}

#[test]
fn refusal_6_limit_and_time_limit() {
    for number in ["-1", "+1", "1.5", " 1", "1e3", "0x1", "0000000000001", "1\r"] {
        refused(format!("A,abs_vol,X,{number}").as_bytes(), 6, 1);
        refused(format!("A,rate_vol,X,1,{number}").as_bytes(), 6, 1);
        good(format!("A,abs_vol,X,1,{number}").as_bytes());
    }
    refused(b"A,abs_vol,X,", 6, 1);
    refused(b"A,abs_vol,X,,,,,", 6, 1);
}

#[test]
fn reading_1_wrong_unit_letters_are_6() {
    for fields in ["X,F", "C,X", "CC,F", "C,FF", "c,F", "C,f", "F,C", "C,\r", "X,"] {
        refused(format!("A,abs_vol,X,1,,,{fields}").as_bytes(), 6, 1);
    }
    for fields in ["C,", ",F", "P", "C"] {
        refused(format!("A,abs_vol,X,1,,,{fields}").as_bytes(), 10, 1);
    }
}

#[test]
fn reading_2_leading_zeros_and_ranges() {
    assert_eq!(good(b"A,rate_vol,X,000000000007,000000000500").rules[0].limit, 7);
    assert_eq!(good(b"A,rate_vol,X,000000000007,000000000500").rules[0].window, Some(500));
    for (kind, value) in [("abs_vol", "0"), ("abs_count", "1000000001"), ("abs_vol", "1000000001"), ("abs_ntnl", "0")] {
        refused(format!("A,{kind},X,{value}").as_bytes(), 8, 1);
    }
    refused(b"A,rate_ntnl,X,100000000001", 8, 1);
    refused(b"A,rate_ntnl,X,999999999999", 8, 1);
    refused(b"A,rate_vol,X,1,86400001", 8, 1);
    refused(b"A,rate_vol,X,1,999999999999", 8, 1);
    refused(b"A,rate_vol,X,1,1000000000000", 6, 1);
    assert_eq!(good(b"A,rate_ntnl,X,100000000000,86400000").rules[0].limit, 1_000_000_000_000_000);
    assert_eq!(good(b"A,rate_count,X,1000000000,86400000").rules[0].window, Some(86_400_000));
    good(b"A,abs_vol,X,1000000000,86400001");
}

#[test]
fn reading_3_nine_fields() {
    refused(b"A,abs_vol,X,1,,,C,F,", 6, 1);
    good(b"A,abs_vol,X,1,,,C,F");
}

#[test]
fn reading_4_cr_is_content() {
    refused(b"A,abs_vol,,1,0,T\r\n", 9, 1);
    good(b"A,abs_vol,X,1,0,T\r\n");
    good(b"A,abs_vol,X,1,\r\n");
    refused(b"A,rate_vol,X,1,\r\n", 6, 1);
    refused(b"A,abs_vol,X,1\r\n", 6, 1);
    refused(b"A,abs_vol,X,1,,,\r\n", 6, 1);
}

#[test]
fn reading_5_lines_and_lf() {
    assert_eq!(good(b"A,abs_vol,X,1\n"), good(b"A,abs_vol,X,1"));
    refused(b"A,abs_vol,X,1\n\n", 6, 2);
    refused(b"\n", 6, 1);
    refused(b"\nA,abs_vol,X,1", 6, 1);
    refused(b"A,abs_vol,X,1\n\nA,abs_vol,X,1", 6, 2);
}

#[test]
fn reading_6_first_line_then_lowest_number() {
    refused(b"A,abs_vol,X,0\nA,bad,X,1", 8, 1);
    refused(b"A,abs_vol,X,1\nB,abs_vol,X,0,,T,C,", 7, 2);
    refused(b"A,abs_vol,X,1\nB,abs_vol,X,0,,T,X,", 6, 2);
    refused(b"A,abs_vol,X,0,,T,C,", 8, 1);
    refused(b"A,abs_vol,X,1,,T,C,", 9, 1);
    refused(b"A,abs_vol,,1,,T,C,", 10, 1);
    let roots: String = (0..256).map(|place| format!("A,abs_vol,R{},1\n", place % 64)).collect();
    good(roots.as_bytes());
    let with = |line: &str| format!("{roots}{line}").into_bytes();
    refused(&with("A,abs_vol,R0,1"), 11, 257);
    refused(&with("\n"), 6, 257);
    refused(&with("A,abs_vol,R0"), 6, 257);
    refused(&with("B,abs_vol,R0,1"), 7, 257);
    refused(&with("A,abs_vol,R0,0"), 8, 257);
    refused(&with("A,abs_vol,,1"), 9, 257);
    refused(&with("A,abs_vol,R0,1,,,C"), 10, 257);
}

#[test]
fn refusal_7_other_firm() {
    refused(b"ABCD,abs_vol,X,1\nABC,abs_vol,X,1", 7, 2);
    refused(b"A,abs_vol,X,1\nA,abs_vol,X,1\nB,abs_vol,X,1", 7, 3);
}

#[test]
fn refusal_9_root_and_t() {
    refused(b"A,abs_vol,X,1,,T", 9, 1);
    refused(b"A,abs_vol,,1", 9, 1);
    for free in ["", "F", "t", "TT", "T ", " T"] {
        refused(format!("A,abs_vol,,1,,{free}").as_bytes(), 9, 1);
        good(format!("A,abs_vol,X,1,,{free}").as_bytes());
    }
    good(b"A,abs_vol,,1,,T");
}

#[test]
fn refusal_10_unit_fields() {
    refused(b"A,abs_vol,X,1,,,C,", 10, 1);
    refused(b"A,abs_vol,X,1,,,,T", 10, 1);
    refused(b"A,abs_vol,,1,,T,C,F", 10, 1);
    refused(b"A,abs_vol,,1,,T,,F", 10, 1);
}
