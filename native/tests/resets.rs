//! Resets that unlock and forget nothing, and resets that give room back, by name, on both programs.

use native::both::Both;
use second::place::*;

#[test]
fn t_and_e_unlock_and_forget_nothing() {
    let mut both = Both::armed("A,abs_vol,X,10\\nA,rate_vol,X,50,1000\\nA,abs_vol,,12,,T");
    both.says("offer 0 0 3 1 2", &[0, 0, 2]).says("offer 0 0 0 1 10", &[0, 0, 10, 1, 1]).says("lockout 1 0 0", &[0]);
    both.says("lockout 1 1 0", &[0]).says("order 1 0 4", &[0, 1]).says("order 2 0 5", &[0]).says("remaining 2 0 0", &[0, 0]);
    both.says("remaining 2 0 3", &[0, 8]).says("remaining 2 1 0", &[0, 40]).says("remaining 2 2 0", &[0, 0]);
    // both totals stand at their limits: an order passes, and the next offer trips again
    both.says("order 3 0 0", &[0]).says("offer 3 0 0 1 1", &[0, 0, 0, 1, 1]).says("order 3 0 0", &[0, 1]).says("order 3 0 6", &[0]);
    // on another unit the firm's total alone stands at its limit
    both.says("offer 4 0 3 1 1", &[0, 0, 0, 0, 1])
        .says("order 4 0 5", &[0])
        .says("order 5 0 2", &[0])
        .says("offer 5 0 3 1 9", &[0, 0, 8, 1]);
    both.says("order 6 0 5", &[0, 2]).says("order 6 0 6", &[0]).refuses(13, &["order 7 0 7", "order 7 1 4", "order 7 1 5", "order 7 1 6"]);
    Both::armed("A,abs_vol,,5,,T").refuses(13, &["order 0 0 4", "order 0 0 5", "order 0 0 6"]);
}

#[test]
fn a_reset_gives_room_back() {
    let full = || {
        let mut both = Both::armed("A,rate_vol,Q,1000000000,1000\\nA,rate_vol,R,1000000000,1000");
        for n in 0..512 {
            both.says(&format!("offer {n} {} 0 1 1", n % 2), &[0, 0, 1]);
        }
        both.refuses(15, &["offer 600 0 0 1 1"]);
        both
    };
    // a flag that is left keeps the entry, also where no firm rule is
    full()
        .says("order 600 0 1", &[0])
        .refuses(15, &["offer 600 0 0 1 1"])
        .says("order 600 0 2", &[0])
        .says("offer 600 0 0 1 1", &[0, 0, 1]);
    full()
        .says("order 600 0 2", &[0])
        .refuses(15, &["offer 600 0 0 1 1"])
        .says("order 600 1 1", &[0])
        .says("offer 600 0 0 1 1", &[0, 0, 1]);
    // BOTH on one root leaves the entries of the other, which still count there
    let mut both = full();
    both.says("order 600 0 3", &[0]).says("remaining 600 0 0", &[0, 1_000_000_000]).says("remaining 600 1 0", &[0, 1_000_000_000 - 256]);
    assert_eq!(both.from(ENTRY_COUNT, 1), [256]);
    for _ in 0..256 {
        both.says("offer 600 0 0 1 1", &[0, 0, 1]);
    }
    both.refuses(15, &["offer 600 0 0 1 1"]).says("order 600 0 6", &[0]).refuses(15, &["offer 600 0 0 1 1"]);
}

#[test]
fn an_entry_that_counts_for_nothing_is_unsound() {
    for flags in 0..4 {
        let mut both = Both::armed("A,rate_vol,Q,5,1000");
        both.says("offer 7 0 2 1 1", &[0, 0, 1]);
        both.put(LOG, 7 << 10 | 2 << 2 | flags);
        both.says("status", if flags == 0 { &[2] } else { &[0, 0, 0, 0, 64] });
    }
}

#[test]
fn resets_at_one_time_leave_the_same_memory_in_either_order() {
    // two roots and the firm with totals, entries and marks of both kinds, and an order open away
    let after = |orders: &[(u64, u64)]| {
        let mut both = Both::armed(
            "A,abs_vol,Q,10\\nA,rate_vol,Q,50,1000\\nA,abs_count,R,3\\nA,rate_ntnl,R,900,500\\nA,abs_vol,,40,,T\\nA,rate_count,,100,1000,T",
        );
        for line in ["offer 0 0 0 1 10", "offer 1 1 2 1 7", "send 1 1 1 5 30 9 3", "report 2 9 12", "lockout 3 0 1", "lockout 3 1 0"] {
            both.run(line);
        }
        for (root, reset) in orders {
            assert_eq!(both.run(&format!("order 5 {root} {reset}"))[0], 0, "{root} {reset}");
        }
        both.from(0, NUMBERS)
    };
    for (first, second) in [(0, 0), (0, 1), (1, 0), (1, 1)] {
        for (a, b) in (0..49).map(|n| ((first, n / 7), (second, n % 7))) {
            assert_eq!(after(&[a, b]), after(&[b, a]), "{a:?} and {b:?}");
        }
    }
    for root in 0..2 {
        (0..7).for_each(|reset| assert_eq!(after(&[(root, reset), (root, reset)]), after(&[(root, reset)]), "{root} {reset}"));
        assert_eq!(after(&[(root, 1), (root, 2)]), after(&[(root, 3)]));
        assert_eq!(after(&[(root, 4), (root, 5)]), after(&[(root, 6)]));
        assert_ne!(after(&[(root, 1)]), after(&[(root, 4)]));
    }
    assert_ne!(after(&[(0, 1)]), after(&[(1, 1)]));
}
