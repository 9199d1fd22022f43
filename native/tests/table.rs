//! The worked examples of the papers and the bench table, on both programs, which must agree in the answer and in the whole memory.

use native::both::Both;

/// Ten-thousandths in a dollar.
const DOLLAR: u64 = 10_000;

#[test]
fn example_notional_is_premium_times_contracts() {
    let mut both = Both::armed("ABCD,abs_ntnl,XYZ,29");
    both.says("offer 0 0 0 30000 5", &[0, 0, 5]).says("remaining 0 0 0", &[0, 14 * DOLLAR]).says("offer 0 0 0 20000 7", &[0, 0, 7, 1]);
}

#[test]
fn example_minimum_quantity_yields_to_the_limit() {
    let mut both = Both::armed("ABCD,abs_vol,ZVZT,1000");
    both.says("offer 0 0 0 10000 950", &[0, 0, 950]).says("offer 1 0 0 10000 200", &[0, 0, 50, 1]);
}

#[test]
fn example_burst_sustained_and_absolute_rules_together() {
    let mut both = Both::armed("ABCD,rate_ntnl,XYZ,100,1000\\nABCD,rate_ntnl,XYZ,5000,300000\\nABCD,abs_count,XYZ,10000");
    for second in 0..50 {
        both.says(&format!("offer {} 0 0 10000 100", 1_000 * second), &[0, 0, 100]);
    }
    both.says("remaining 50000 0 0", &[0, 100 * DOLLAR]).says("remaining 50000 1 0", &[0, 0]).says("remaining 50000 2 0", &[0, 9_950]);
    both.says("offer 50000 0 0 10000 1", &[0, 0, 0, 1]);
}

#[test]
fn example_sample_file_lacks_the_firm_and_misspells() {
    Both::default().says("arm rate_ntrl,osi_root,1000000,1000", &[6, 1]).says("arm ABCD,rate_ntrl,XYZ,1000000,1000", &[6, 1]);
    let kinds = ["rate_ntnl", "rate_vol", "rate_count", "abs_ntnl", "abs_vol", "abs_count"];
    let text: String = kinds.iter().map(|kind| format!("ABCD,{kind},XYZ,1000000,250\\n")).collect();
    Both::default().says(&format!("arm {text}"), &[0, 0, 0x4142_4344, 6, 1]);
}

#[test]
fn example_of_the_program() {
    let mut both = Both::armed("ABCD,abs_vol,XYZ,1000,0");
    both.says("offer 0 0 0 70000 950", &[0, 0, 950]).says("offer 10 0 0 70000 200", &[0, 0, 50, 1]).says("order 20 0 0", &[0, 2]);
}

#[test]
fn b1_notional_a_minute() {
    let mut both = Both::armed("ABCD,rate_ntnl,XYZ,1000,60000");
    both.says("offer 0 0 0 70000 140", &[0, 0, 140]).says("remaining 9 0 0", &[0, 20 * DOLLAR]);
    both.says("offer 9 0 0 70000 3", &[0, 0, 2, 1]).says("remaining 9 0 0", &[0, 6 * DOLLAR]);
}

#[test]
fn b2_three_rules_and_a_reset() {
    let mut both = Both::armed("ABCD,rate_vol,MSFT,500,1000\\nABCD,rate_vol,MSFT,20000,60000\\nABCD,abs_ntnl,MSFT,100000");
    for second in 0..37 {
        let dollars = if second < 12 { 2 } else { 1 };
        both.says(&format!("offer {} 0 0 {} 500", 1_000 * second, dollars * DOLLAR), &[0, 0, 500]);
    }
    both.says("offer 37000 0 0 10000 100", &[0, 0, 100]).says("offer 38000 0 0 10000 400", &[0, 0, 400]);
    both.says("remaining 38500 0 0", &[0, 100]).says("remaining 38500 1 0", &[0, 1_000]).says("remaining 38500 2 0", &[0, 75_000 * DOLLAR]);
    both.says("offer 38500 0 0 10000 200", &[0, 0, 100, 1]).says("order 38500 0 0", &[0, 2]).says("order 38500 0 1", &[0]);
    both.says("remaining 38500 0 0", &[0, 500])
        .says("remaining 38500 1 0", &[0, 20_000])
        .says("remaining 38500 2 0", &[0, 100_000 * DOLLAR]);
}

#[test]
fn b3_and_b4_an_absolute_rule_trips_when_just_reached_and_a_rate_rule_does_not() {
    Both::armed("ABCD,abs_vol,XYZ,1000").says("offer 0 0 0 1 950", &[0, 0, 950]).says("offer 1 0 0 1 50", &[0, 0, 50, 1]);
    let mut rate = Both::armed("ABCD,rate_vol,XYZ,1000,1000");
    rate.says("offer 0 0 0 1 950", &[0, 0, 950]).says("offer 1 0 0 1 50", &[0, 0, 50]).says("order 1 0 0", &[0]);
}

#[test]
fn b5_and_b6_the_eleventh_fill_at_999_and_at_1000() {
    for (time, row) in [(999, [0, 0, 0, 1]), (1_000, [0, 0, 5, 0])] {
        let mut both = Both::armed("ABCD,rate_count,XYZ,10,1000");
        for time in 0..10 {
            both.says(&format!("offer {time} 0 0 1 5"), &[0, 0, 5]);
        }
        both.says(&format!("offer {time} 0 0 1 5"), &row);
    }
}

#[test]
fn b7_the_tenth_fill_trips_an_absolute_count() {
    let mut both = Both::armed("ABCD,abs_count,XYZ,10");
    for time in 0..9 {
        both.says(&format!("offer {time} 0 0 1 5"), &[0, 0, 5]);
    }
    both.says("offer 9 0 0 1 5", &[0, 0, 5, 1]);
}

#[test]
fn b8_one_contract_too_dear() {
    for kind in ["rate_ntnl", "abs_ntnl"] {
        let mut both = Both::armed(&format!("ABCD,{kind},XYZ,1000,60000"));
        both.says("offer 0 0 0 70000 140", &[0, 0, 140]).says("offer 1 0 0 210000 1", &[0, 0, 0, 1]);
    }
}

#[test]
fn b9_and_b10_root_and_firm_cut() {
    for (firm, row, verdict) in [(10, [0, 0, 5, 1, 1], 1), (12, [0, 0, 5, 1, 0], 2)] {
        let mut both = Both::armed(&format!("ABCD,rate_vol,XYZ,10,1000\\nABCD,rate_vol,,{firm},1000,T"));
        both.says("offer 0 0 0 1 5", &[0, 0, 5]).says("offer 1 0 0 1 8", &row).says("order 1 0 0", &[0, verdict]);
    }
}

#[test]
fn b11_the_shortest_window_is_100() {
    for (limit, window) in [(",", 100), (",0", 100), (",99", 100), (",101", 101), ("", 100)] {
        let mut both = Both::armed(&format!("ABCD,rate_vol,XYZ,10{limit}"));
        both.says("offer 0 0 0 1 4", &[0, 0, 4]).says(&format!("remaining {} 0 0", window - 1), &[0, 6]);
        both.says(&format!("remaining {window} 0 0"), &[0, 10]);
    }
}

#[test]
fn b12_each_unit_of_a_root_rule_counts_for_itself() {
    let mut both = Both::armed("ABCD,abs_vol,XYZ,100");
    both.says("offer 0 0 0 1 60", &[0, 0, 60]).says("offer 1 0 3 1 60", &[0, 0, 60]).says("remaining 1 0 1", &[0, 100]);
    both.says("offer 2 0 3 1 60", &[0, 0, 40, 1]).says("order 2 0 0", &[0, 2]).says("offer 2 0 1 1 1", &[0, 2]);
    both.says("order 3 0 1", &[0]).says("remaining 3 0 0", &[0, 100]).says("remaining 3 0 3", &[0, 100]);
}
