//! Request 5 of document 02: an entry that counts for neither root nor firm leaves the log in the same call.

mod common;

use common::{armed, full_log, refused};
use second::unit::{Entry, Unit};

/// The log's entries: time, root, and what they count for.
fn log(unit: &Unit) -> Vec<(u64, u64, bool, bool)> {
    let shown = |entry: &Entry| (entry.time, entry.root, entry.counts_for_root, entry.counts_for_firm);
    unit.armed.as_ref().unwrap().log.iter().map(shown).collect()
}

/// A unit with fills at 0, 1, 2 and 3 ms on roots 0, 1, 0 and 1.
fn four_fills() -> Unit {
    let mut unit = armed("A,rate_vol,X,100,1000\nA,rate_vol,Y,100,1000");
    for time in 0..4 {
        assert_eq!(unit.offer(time, time % 2, 0, 1, 1).grant, 1);
    }
    unit
}

#[test]
fn a_both_on_the_only_root_gives_all_room_back() {
    let mut unit = full_log(1_000);
    refused(&unit, 15, |unit| unit.offer(1, 0, 0, 1, 1).numbers());
    assert_eq!(unit.order(1, 0, 3).numbers(), [0, 0, 0, 0, 0]);
    assert_eq!(log(&unit), []);
    assert_eq!(unit.offer(1, 0, 0, 1, 1).numbers(), [0, 0, 1, 0, 0]);
}

#[test]
fn symbol_and_firm_one_after_the_other_do_too() {
    for resets in [[1, 2], [2, 1]] {
        let mut unit = full_log(1_000);
        assert_eq!(unit.order(1, 0, resets[0]).refusal, 0);
        refused(&unit, 15, |unit| unit.offer(1, 0, 0, 1, 1).numbers());
        assert_eq!(unit.order(1, 0, resets[1]).refusal, 0);
        assert_eq!(unit.offer(1, 0, 0, 1, 1).numbers(), [0, 0, 1, 0, 0]);
    }
}

#[test]
fn a_flag_that_is_left_keeps_the_entry_in_its_order() {
    let mut unit = four_fills();
    assert_eq!(unit.order(5, 0, 1).refusal, 0);
    assert_eq!(log(&unit), [(0, 0, false, true), (1, 1, true, true), (2, 0, false, true), (3, 1, true, true)]);
    assert_eq!(unit.order(5, 1, 2).refusal, 0);
    assert_eq!(log(&unit), [(1, 1, true, false), (3, 1, true, false)]);
    assert_eq!(unit.order(5, 1, 1).refusal, 0);
    assert_eq!(log(&unit), []);
}

#[test]
fn a_firm_flag_keeps_an_entry_without_firm_rules() {
    let mut unit = full_log(1_000);
    assert_eq!(unit.order(1, 0, 1).refusal, 0);
    assert_eq!(log(&unit).len(), 512);
    refused(&unit, 15, |unit| unit.offer(1, 0, 0, 1, 1).numbers());
}

#[test]
fn both_resets_its_root_and_the_firm() {
    let mut unit = four_fills();
    assert_eq!(unit.order(5, 0, 3).refusal, 0);
    assert_eq!(log(&unit), [(1, 1, true, false), (3, 1, true, false)]);
}

#[test]
fn resets_that_leave_the_flags_leave_the_log() {
    for reset in [0, 4, 5, 6] {
        let mut unit = four_fills();
        let before = log(&unit);
        assert_eq!(unit.order(5, 0, reset).refusal, 0);
        assert_eq!(log(&unit), before);
    }
}

#[test]
fn entries_out_of_the_window_leave_by_a_reset_as_well() {
    let mut unit = four_fills();
    assert_eq!(unit.order(50_000, 0, 0).refusal, 0);
    assert_eq!(log(&unit).len(), 4);
    assert_eq!(unit.order(50_000, 0, 3).refusal, 0);
    assert_eq!(log(&unit), [(1, 1, true, false), (3, 1, true, false)]);
}
