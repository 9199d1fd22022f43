//! Profile texts with one rule or root too many: refusal 11, and readings 7 and 8.

mod common;

use common::profile::{good, refused};

/// So many lines of the same text.
fn times(line: &str, number: usize) -> String {
    format!("{line}\n").repeat(number)
}

#[test]
fn refusal_11_rules() {
    let text: String = (0..257).map(|place| format!("A,abs_vol,R{},1\n", place % 64)).collect();
    refused(text.as_bytes(), 11, 257);
}

#[test]
fn refusal_11_firm_rules() {
    good(times("A,abs_vol,,1,,T", 10).as_bytes());
    refused(times("A,abs_vol,,1,,T", 11).as_bytes(), 11, 11);
}

#[test]
fn refusal_11_roots() {
    let roots = |number: usize| -> String { (0..number).map(|place| format!("A,abs_vol,R{place},1\n")).collect() };
    good(roots(64).as_bytes());
    refused(roots(65).as_bytes(), 11, 65);
}

#[test]
fn refusal_11_rules_on_a_unit() {
    good(times("A,abs_vol,X,1", 6).as_bytes());
    refused(times("A,abs_vol,X,1", 7).as_bytes(), 11, 7);
    refused(times("A,abs_vol,X,1,,,P,F", 7).as_bytes(), 11, 7);
    let mixed = times("A,abs_vol,X,1", 4) + &times("A,abs_vol,X,1,,,P,F", 2);
    refused((mixed.clone() + "A,abs_vol,X,1,,,P,F").as_bytes(), 11, 7);
    good((mixed + "A,abs_vol,X,1,,,P,T\nA,abs_vol,Y,1").as_bytes());
}

#[test]
fn reading_7_one_full_unit_stops_a_rule_of_all_units() {
    let one_full = times("A,abs_vol,X,1,,,C,T", 6);
    refused((one_full.clone() + "A,abs_vol,X,1").as_bytes(), 11, 7);
    good((one_full + "A,abs_vol,X,1,,,C,F").as_bytes());
    let each: String = ["C,F", "C,T", "P,F", "P,T"].map(|unit| times(&format!("A,abs_vol,X,1,,,{unit}"), 6)).concat();
    assert_eq!(good(each.as_bytes()).rules.len(), 24);
}

#[test]
fn reading_8_equal_rules_are_two() {
    assert_eq!(good(times("A,abs_vol,X,1", 2).as_bytes()).rules.len(), 2);
}
