//! Orders sent away, by name: each sentence of the request on both programs, which must agree in the answer and in the whole memory.

use native::both::Both;
use second::place::*;

#[test]
fn a_sending_stands_in_the_register() {
    let mut both = Both::armed("A,abs_vol,X,5\\nA,rate_vol,,500,1000,T");
    both.says("send 7 0 3 100000000 1000000 65535 16", &[0]).says("send 8 0 1 70000 3 0 1", &[0]);
    assert_eq!(both.from(REGISTER, 6), [2, 65_535 << 13 | 3 << 5 | 16, 100_000_000 << 20 | 1_000_000, 1 << 5 | 1, 70_000 << 20 | 3, 0]);
    assert_eq!(both.from(CLOCK, 1), [8]);
    // closing the first moves the second up
    both.says("close 9 65535", &[0]);
    assert_eq!(both.from(REGISTER, 5), [1, 1 << 5 | 1, 70_000 << 20 | 3, 0, 0]);
}

#[test]
fn under_a_lock_only_the_clock_changes() {
    for (level, verdict) in [(1, 1), (0, 2)] {
        let mut both = Both::armed("A,rate_vol,X,5,1000");
        both.says(&format!("lockout 0 {level} 0"), &[0]).says("send 7 0 0 1 1 1 1", &[0, verdict]);
        assert_eq!((both.from(CLOCK, 1), both.from(REGISTER, 3)), (vec![7], vec![0; 3]));
    }
}

#[test]
fn a_report_counts_at_the_registered_premium_past_the_limit_and_under_locks() {
    let mut both = Both::armed("A,abs_ntnl,X,1000\\nA,rate_vol,X,100,1000\\nA,abs_count,,9,,T");
    both.says("offer 0 0 0 10000 950", &[0, 0, 100, 1]).says("order 0 0 6", &[0]).says("send 1 0 0 10000 1000 5 3", &[0]);
    // 100 + 900 dollars: the absolute limit is reached, the rate limit passed
    both.says("report 2 5 900", &[0, 0, 900, 1]).says("remaining 2 0 0", &[0]).says("remaining 2 1 0", &[0]).says("lockout 2 1 0", &[0]);
    both.says("report 3 5 100", &[0, 0, 100, 1]).refuses(19, &["report 3 5 1"]).says("close 3 5", &[0]).refuses(18, &["report 3 5 1"]);
    assert_eq!(both.from(TOTALS, 1), [11_000_000]);
    assert_eq!(both.from(ENTRY_COUNT, 1), [3]);
}

#[test]
fn an_absolute_rule_trips_at_its_limit_and_a_rate_rule_above_it() {
    for (kind, at) in [("abs_vol", 1), ("rate_vol", 0)] {
        let mut both = Both::armed(&format!("A,{kind},,10,1000,T\\nA,abs_vol,X,1000"));
        both.says("send 0 0 0 1 1000 1 16", &[0]).says("report 0 1 9", &[0, 0, 9]).says("report 0 1 1", &[0, 0, 1, 0, at]);
        // a level that had tripped is answered again
        both.says("report 0 1 1", &[0, 0, 1, 0, 1]).says("report 0 1 1", &[0, 0, 1, 0, 1]).says("order 0 0 0", &[0, 1]);
    }
}

#[test]
fn a_report_looks_at_its_own_unit_alone() {
    let mut both = Both::armed("A,abs_vol,X,10\\nA,rate_vol,X,10,1000");
    both.says("offer 0 0 0 1 10", &[0, 0, 10, 1]).says("order 0 0 4", &[0]).says("send 0 0 2 1 50 1 16", &[0]);
    both.says("report 0 1 9", &[0, 0, 9])
        .says("report 0 1 1", &[0, 0, 1, 1])
        .says("remaining 0 0 2", &[0])
        .says("remaining 0 0 1", &[0, 10]);
}

#[test]
fn totals_are_held() {
    let most = 1_000_000_000_000_000_000;
    let mut both = Both::armed("A,abs_vol,X,10");
    both.says("send 0 0 1 1 50 1 16", &[0]).put(TOTALS + 1, most - 5);
    both.says("report 0 1 4", &[0, 0, 4, 1]).says("report 0 1 4", &[0, 0, 4, 1]).says("report 0 1 4", &[0, 0, 4, 1]);
    assert_eq!(both.from(TOTALS, 4), [0, most, 0, 0]);
    both.put(TOTALS + 1, most + 1).refuses(2, &["status"]);
}

#[test]
fn refusals_of_sendings_in_their_order() {
    let mut both = Both::armed("A,rate_vol,X,1000000000,1000");
    both.refuses(13, &["send 5 1 0 0 0 0 0", "send 5 0 4 0 0 0 0", "send 5 0 0 0 0 65536 0", "send 5 0 0 1 1 18446744073709551615 1"]);
    both.refuses(14, &["send 5 0 0 0 1 0 1", "send 5 0 0 100000001 1 0 1", "send 5 0 0 1 0 0 1", "send 5 0 0 1 1000001 0 1"]);
    both.refuses(14, &["send 5 0 0 1 1 0 0", "send 5 0 0 1 1 0 17"]);
    for identity in 0..63 {
        both.says(&format!("send 0 0 0 1 1 {identity} 8"), &[0]);
    }
    // 504 places are kept: 8 are left
    both.refuses(18, &["send 0 0 0 1 1 0 16", "send 0 0 0 1 1 62 1"])
        .refuses(15, &["send 0 0 0 1 1 63 9"])
        .says("send 0 0 0 1 1 63 8", &[0]);
    both.refuses(17, &["send 0 0 0 1 1 0 1", "send 0 0 0 1 1 64 1"]).refuses(14, &["send 0 0 0 1 1 64 0"]);
    // 17 and 18 come at any verdict, 15 at verdict 0 alone
    both.says("lockout 0 0 0", &[0]).refuses(17, &["send 0 0 0 1 1 64 1"]).says("close 0 9", &[0]).refuses(18, &["send 0 0 0 1 1 0 1"]);
    both.says("send 0 0 0 1 1 9 16", &[0, 2])
        .says("order 0 0 4", &[0])
        .refuses(15, &["send 0 0 0 1 1 9 9"])
        .says("send 0 0 0 1 1 9 8", &[0]);
}

#[test]
fn refusals_of_reports_and_closings_in_their_order() {
    let mut both = Both::armed("A,abs_vol,X,100");
    both.says("send 5 0 0 1 10 1 2", &[0])
        .refuses(12, &["report 4 65536 0", "close 4 65536"])
        .refuses(13, &["report 5 65536 0", "close 5 65536"]);
    both.refuses(14, &["report 5 2 0", "report 5 2 1000001"]).refuses(18, &["report 5 2 11", "close 5 2"]).refuses(19, &["report 5 1 11"]);
    both.says("report 5 1 4", &[0, 0, 4]).refuses(19, &["report 5 1 7"]).says("report 5 1 1", &[0, 0, 1]).refuses(19, &["report 5 1 1"]);
    // an order without reports stays open until it is closed
    both.refuses(18, &["send 5 0 0 1 1 1 1"])
        .says("close 5 1", &[0])
        .refuses(18, &["close 5 1", "report 5 1 1"])
        .says("send 5 0 0 1 1 1 1", &[0]);
}

#[test]
fn kept_places_count_for_15_until_they_are_closed() {
    let mut both = Both::armed("A,rate_vol,X,1000000000,1000");
    for _ in 0..500 {
        both.says("offer 0 0 0 1 1", &[0, 0, 1]);
    }
    both.refuses(15, &["send 0 0 0 1 1 1 13"]).says("send 0 0 0 1 1 1 7", &[0]).says("send 0 0 0 1 100 2 5", &[0]);
    both.refuses(15, &["offer 0 0 0 1 1", "offer 999 0 0 1 1", "send 999 0 0 1 1 3 1"]).says("report 0 1 1", &[0, 0, 1]);
    // no contract is open, and six places are kept still
    both.refuses(15, &["offer 0 0 0 1 1"]).says("close 0 1", &[0]);
    for _ in 0..6 {
        both.says("offer 0 0 0 1 1", &[0, 0, 1]);
    }
    both.refuses(15, &["offer 0 0 0 1 1"]);
    for _ in 0..5 {
        both.says("report 0 2 1", &[0, 0, 1]);
    }
    assert_eq!(both.from(ENTRY_COUNT, 1), [512]);
    both.refuses(15, &["offer 999 0 0 1 1", "send 999 0 0 1 1 3 1"])
        .says("send 1000 0 0 1 1 3 16", &[0])
        .says("offer 1000 0 0 1 1", &[0, 0, 1]);
}

#[test]
fn without_a_rate_rule_no_place_is_kept() {
    let mut both = Both::armed("A,abs_vol,X,1000000");
    for identity in 0..64 {
        both.says(&format!("send 0 0 0 1 1 {identity} 16"), &[0]);
    }
    both.says("offer 0 0 0 1 1", &[0, 0, 1]).says("report 0 5 1", &[0, 0, 1]).says("status", &[0, 0, 0, 0, 64]);
    assert_eq!(both.from(ENTRY_COUNT, 1), [0]);
}

#[test]
fn a_sending_drops_nothing_and_a_report_does() {
    let mut both = Both::armed("A,rate_vol,X,100,1000");
    both.says("offer 0 0 0 1 1", &[0, 0, 1]).says("offer 1 0 0 1 1", &[0, 0, 1]).says("send 1000 0 0 1 5 1 2", &[0]);
    assert_eq!(both.from(ENTRY_COUNT, 1), [2]);
    both.says("report 1000 1 1", &[0, 0, 1]);
    assert_eq!(both.from(ENTRY_COUNT, 1), [2]);
    // no reset touches the register
    let register = both.from(REGISTER, 4);
    (1..=6).for_each(|reset| assert_eq!(both.run(&format!("order 1000 0 {reset}"))[0], 0));
    assert_eq!(both.from(REGISTER, 4), register);
}

#[test]
fn soundness_of_the_register() {
    let sent = || {
        let mut both = Both::armed("A,rate_vol,X,1000,1000\\nA,abs_vol,Y,5");
        both.says("send 3 1 2 70000 3 9 4", &[0]).says("send 4 0 0 1 5 65535 16", &[0]);
        both
    };
    let (first, second) = (9 << 13 | 1 << 7 | 2 << 5, 70_000 << 20);
    let sound = [(1, first | 4), (1, first), (1, first | 16), (2, second), (2, second | 1_000_000), (2, 100_000_000 << 20), (1, 3 << 5)];
    for (place, number) in sound {
        sent().put(REGISTER + place, number).says("status", &[0, 0, 0, 0, 64]);
    }
    let bad = [
        (0, 1),
        (0, 3),
        (0, 65),
        (1, first | 17),
        (1, 65_535 << 13),
        (1, 9 << 13 | 2 << 7),
        (1, 1 << 29 | first),
        (2, 3),
        (2, 100_000_001 << 20),
        (2, second | 1_000_001),
        (2, 1 << 47 | second),
        (5, 1),
        (128, 1),
    ];
    for (place, number) in bad {
        sent().put(REGISTER + place, number).refuses(2, &["status", "close 4 65535"]);
    }
}

#[test]
fn the_use_at_the_clock_is_at_most_512() {
    let full = || {
        let mut both = Both::armed("A,rate_vol,X,1000000,1000");
        (0..500).for_each(|_| assert_eq!(both.run("offer 0 0 0 1 1")[0], 0));
        both.says("send 0 0 0 1 5 1 12", &[0]);
        both
    };
    full()
        .put(REGISTER + 1, 1 << 13 | 13)
        .refuses(2, &["status"])
        .put(CLOCK, 999)
        .refuses(2, &["status"])
        .put(CLOCK, 1_000)
        .says("status", &[0, 0, 0, 0, 64]);
}
