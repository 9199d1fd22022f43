//! The state in lent numbers, held beside the map of docs/MEMORY.md and document 01's sentence on soundness.

use second::gen;
use second::memory::{read, write, Held};
use second::place::*;
use second::unit::Unit;

/// A firm rule, a rule of one unit and a rule of a whole root; two fills, a trip of root 0 and a lockout of root 1.
fn example() -> (Unit, Vec<u64>) {
    let mut unit = Unit::new();
    let text = b"AB9,abs_ntnl,,1000,x,T\nAB9,rate_vol,XYZ,500,60000,,P,T\nAB9,rate_count,Q,7,1000\nAB9,abs_vol,XYZ,5";
    assert_eq!(unit.arm(text).numbers(), [0, 0, 0x41_4239, 4, 2]);
    assert_eq!(unit.offer(10, 0, 3, 70_000, 3).numbers(), [0, 0, 3, 0, 0]);
    assert_eq!(unit.offer(12, 0, 0, 1, 5).numbers(), [0, 0, 5, 1, 0]);
    assert_eq!(unit.lockout(15, 0, 1).refusal, 0);
    let numbers = numbers_of(&unit);
    (unit, numbers)
}

/// The numbers of an armed unit.
fn numbers_of(unit: &Unit) -> Vec<u64> {
    let mut numbers = vec![7; NUMBERS];
    write(unit.armed.as_ref().expect("an armed unit"), &mut numbers);
    numbers
}

/// What the example's numbers hold with some of them changed.
fn with(changes: &[(usize, u64)]) -> Held {
    let mut numbers = example().1;
    changes.iter().for_each(|(place, number)| numbers[*place] = *number);
    read(&numbers)
}

/// Where the first account of each rule of the example has its total, and where the first place is that is not used.
const TOTAL: [usize; 5] = [TOTALS, TOTALS + 1, TOTALS + 2, TOTALS + 6, TOTALS + 10];

/// The first and last number of `4 to 67`, or of one number alone.
fn span_of(text: &str) -> Option<(usize, usize)> {
    let number = |text: &str| text.trim().replace(',', "").parse().ok();
    let (first, last) = text.split_once(" to ").unwrap_or((text, text));
    number(first).zip(number(last))
}

#[test]
fn the_places_are_those_of_the_page() {
    let page = include_str!("../../docs/MEMORY.md");
    let cells = page.lines().filter_map(|row| row.split('|').nth(2));
    let told: Vec<(usize, usize)> = cells.flat_map(|cell| cell.split(", ").filter_map(span_of)).collect();
    let firsts = [
        MARK,
        CLOCK,
        FIRM,
        ROOT_COUNT,
        ROOTS,
        RULE_COUNT,
        RULES,
        TOTALS,
        FIRM_TRIPPED,
        FIRM_LOCKED,
        ROOTS_TRIPPED,
        ROOTS_LOCKED,
        REGISTER,
        REGISTER + 1,
        ENTRY_COUNT,
        LOG,
        NUMBERS,
    ];
    let places: Vec<(usize, usize)> = firsts.windows(2).map(|next| (next[0], next[1] - 1)).collect();
    assert_eq!(told, places);
}

#[test]
fn the_example_stands_where_the_map_says() {
    let mut map = vec![0; NUMBERS];
    let mut put = |place: usize, numbers: &[u64]| map[place..][..numbers.len()].copy_from_slice(numbers);
    put(MARK, &[1]);
    put(CLOCK, &[15]);
    put(FIRM, &[0x41_4239]);
    put(ROOT_COUNT, &[2]);
    put(ROOTS, &[0x58_595A, 0x51]);
    put(RULE_COUNT, &[4]);
    // limit and window, then measure, kind, scope, root and unit
    put(RULES, &[1_000 << 27, 1 << 10]);
    put(RULES + 2, &[500 << 27 | 60_000, 1 << 11 | 2 << 8 | 3]);
    put(RULES + 4, &[7 << 27 | 1_000, 2 << 11 | 1 << 8 | 1 << 2]);
    put(RULES + 6, &[5 << 27, 1 << 11 | 1 << 10 | 1 << 8]);
    put(TOTAL[0], &[210_005]);
    put(TOTAL[3], &[5, 0, 0, 3]);
    put(FIRM_TRIPPED, &[0]);
    put(FIRM_LOCKED, &[0]);
    put(ROOTS_TRIPPED, &[0b01]);
    put(ROOTS_LOCKED, &[0b10]);
    put(ENTRY_COUNT, &[2]);
    // time, root, unit and flags, then premium and contracts
    put(LOG, &[10 << 10 | 3 << 2 | 3, 70_000 << 20 | 3]);
    put(LOG + 2, &[12 << 10 | 3, 1 << 20 | 5]);
    assert_eq!(example().1, map);
}

#[test]
fn reading_after_writing_gives_the_state_back() {
    for seed in 0..300 {
        let text = gen::valid_profile(seed);
        let mut unit = Unit::new();
        unit.arm(&text);
        for (place, call) in gen::events_near(seed, 600, &text).iter().enumerate() {
            call.run(&mut unit);
            if let (0, Some(armed)) = (place % 50, &unit.armed) {
                assert_eq!(read(&numbers_of(&unit)), Held::Sound(armed.clone()), "seed {seed}, call {place}");
            }
        }
    }
}

#[test]
fn the_mark_decides_first() {
    assert_eq!(read(&vec![0; NUMBERS]), Held::NotArmed);
    assert_eq!(with(&[(MARK, 0)]), Held::NotArmed);
    assert_eq!(with(&[(MARK, 0), (RULE_COUNT, 999), (LOG, 5)]), Held::NotArmed);
    assert_eq!(with(&[(MARK, 2)]), Held::Unsound);
    assert_eq!(with(&[(MARK, u64::MAX)]), Held::Unsound);
}

#[test]
fn each_part_of_the_sentence_can_fail() {
    let rate = 500 << 27;
    let unsound: &[&[(usize, u64)]] = &[
        &[(CLOCK, 86_400_000)], // the clock is no time
        &[(CLOCK, 11)],         // an entry is later than the clock
        &[(FIRM, 0)],
        &[(FIRM, 0x41_4243_4445)],
        &[(FIRM, 0x61)], // no firm, one too long, a small letter
        &[(ROOT_COUNT, 1)],
        &[(ROOT_COUNT, 3)],
        &[(ROOT_COUNT, 65)],
        &[(ROOT_COUNT, u64::MAX)], // roots that have no rule, or a rule without root
        &[(ROOTS, 0x51)],
        &[(ROOTS, 0)],
        &[(ROOTS, 0x41 << 48)], // two roots of one name, none, seven bytes
        &[(ROOTS, 0x51), (ROOTS + 1, 0x58_595A), (RULES + 3, 1 << 11 | 2 << 8 | 1 << 2 | 3)], // root 1 is named before root 0
        &[(RULE_COUNT, 3)],
        &[(RULE_COUNT, 5)],
        &[(RULE_COUNT, 257)],
        &[(RULE_COUNT, 0)], // a rule that is not counted, or is not there
        &[(ENTRY_COUNT, 1)],
        &[(ENTRY_COUNT, 3)],
        &[(ENTRY_COUNT, 513)], // an entry that is not counted, or is not there
        &[(FIRM_TRIPPED, 2)],
        &[(FIRM_LOCKED, 2)], // the firm's marks
        &[(ROOTS_TRIPPED, 4)],
        &[(ROOTS_LOCKED, 1 << 63)], // a bit beyond the last root
        &[(RULES, 0)],
        &[(RULES, 100_000_000_001 << 27)], // limits in dollars
        &[(RULES + 2, 60_000)],
        &[(RULES + 2, 1_000_000_001 << 27 | 60_000)], // limits in contracts
        &[(RULES + 2, rate)],
        &[(RULES + 2, rate | 99)],
        &[(RULES + 2, rate | 86_400_001)], // windows
        &[(RULES, 1_000 << 27 | 100)],     // an absolute rule with a window
        &[(RULES + 1, 1 << 13)],
        &[(RULES + 1, 3 << 11)],
        &[(RULES + 1, 3 << 8)], // spare bits, measure 3, scope 3
        &[(RULES + 1, 1 << 10 | 1)],
        &[(RULES + 5, 2 << 11 | 1 << 8 | 5)],          // a unit where the scope has none
        &[(RULES + 3, 1 << 11 | 2 << 8 | 2 << 2 | 3)], // a root that is not there
        &[(TOTAL[0], 1_000_000_000_000_000_001)],
        &[(TOTAL[3] + 2, 1_000_000_000_000_000_001)],
        &[(TOTAL[1], 1)],
        &[(TOTAL[2], 1)],
        &[(TOTAL[2] + 3, 1)],   // totals too large, some of rate rules
        &[(LOG, 13 << 10 | 3)], // entries out of order
        &[(LOG, 10 << 10 | 2 << 4 | 3)],
        &[(LOG, 1 << 37 | 3)],       // an unknown root, spare bits
        &[(LOG, 10 << 10 | 3 << 2)], // an entry that counts for neither root nor firm
        &[(LOG + 1, 3)],
        &[(LOG + 1, 100_000_001 << 20 | 3)],
        &[(LOG + 1, 1 << 47 | 1 << 20 | 3)], // premium and what is above it
        &[(LOG + 1, 1 << 20)],
        &[(LOG + 1, 1 << 20 | 1_000_001)], // contracts
        &[(ROOTS + 2, 1)],
        &[(RULE_COUNT - 1, 1)],
        &[(RULES + 8, 1)],
        &[(TOTALS - 1, 1)],
        &[(TOTAL[4], 1)],
        &[(FIRM_TRIPPED - 1, 1)],
        &[(LOG + 4, 1)],
        &[(NUMBERS - 1, 1)], // places that are not used, the first and the last of each part
    ];
    for changes in unsound {
        assert_eq!(with(changes), Held::Unsound, "{changes:?}");
    }
}

#[test]
fn what_no_day_gives_may_still_be_sound() {
    let sound: &[&[(usize, u64)]] = &[
        &[],
        &[(CLOCK, 86_399_999)],
        &[(FIRM, 0x30)],
        &[(FIRM_TRIPPED, 1), (FIRM_LOCKED, 1), (ROOTS_TRIPPED, 3), (ROOTS_LOCKED, 0)],
        &[(RULES, 100_000_000_000 << 27)],
        &[(RULES + 2, 1_000_000_000 << 27 | 86_400_000)],
        &[(TOTAL[0], 1_000_000_000_000_000_000), (TOTAL[3], 1_000_000_000_000_000_000), (TOTAL[3] + 3, 1_000_000_000_000_000_000)],
        &[(LOG, 12 << 10 | 1 << 4 | 1), (LOG + 1, 100_000_000 << 20 | 1_000_000)],
        &[(LOG, 10 << 10 | 3 << 2 | 2)],
        &[(ENTRY_COUNT, 0), (LOG, 0), (LOG + 1, 0), (LOG + 2, 0), (LOG + 3, 0)],
    ];
    for changes in sound {
        assert!(matches!(with(changes), Held::Sound(_)), "{changes:?}");
    }
}

#[test]
fn no_entry_without_a_rate_rule_and_no_unit_with_seven_rules() {
    let absolute = |rules: u64, entries: u64| {
        let mut numbers = vec![0; NUMBERS];
        (numbers[MARK], numbers[CLOCK], numbers[FIRM]) = (1, 5, 0x41);
        (numbers[ROOT_COUNT], numbers[RULE_COUNT], numbers[ENTRY_COUNT]) = (1, rules, entries);
        numbers[ROOTS] = 0x51;
        for line in 0..rules as usize {
            numbers[RULES + 2 * line..][..2].copy_from_slice(&[9 << 27, 1 << 11 | 1 << 10 | 1 << 8]);
        }
        numbers[LOG..][..2].copy_from_slice(&[entries * (5 << 10 | 3), entries * (1 << 20 | 1)]);
        read(&numbers)
    };
    assert!(matches!(absolute(6, 0), Held::Sound(_)));
    assert_eq!(absolute(7, 0), Held::Unsound);
    assert_eq!(absolute(1, 1), Held::Unsound);
}
