//! A rule without call/put and month counts each unit of its root for itself; what it trips is the root.
mod common;

use common::{armed, contracts, offer, root, time, ArmedUnit};
use mbrumzheg::{raw, Marks, Offer, Reset, UnitOfRoot, Verdict};

/// Grant, root trip and firm trip of an offer at $1 on a unit of root 0.
fn fill(unit: &mut ArmedUnit, ms: u64, of: UnitOfRoot, count: u64) -> (u64, bool, bool) {
    let answer = unit.offer(offer(ms, of, 1, count)).expect("not refused");
    assert!(answer.verdict.passes());
    (answer.grant, answer.root_trip, answer.firm_trip)
}

/// What remains of a rule on each of the four units.
fn left(unit: &ArmedUnit, ms: u64, rule: u64) -> [u64; 4] {
    UnitOfRoot::ALL.map(|of| unit.remaining(time(ms), rule, of).expect("a rule of a whole root"))
}

#[test]
fn a_trip_on_one_unit_locks_the_root_for_the_others() {
    let mut unit = armed("ABCD,abs_vol,XYZ,100\nABCD,abs_vol,QQQ,100");
    assert_eq!(fill(&mut unit, 0, UnitOfRoot::CallsFront, 60), (60, false, false));
    assert_eq!(fill(&mut unit, 1, UnitOfRoot::PutsTrailing, 100), (100, true, false));
    assert_eq!(left(&unit, 1, 0), [40, 100, 100, 0]);
    assert_eq!(unit.order(time(2), root(0), Reset::None), Ok(Verdict::RootLocked));
    for of in UnitOfRoot::ALL {
        let answer = unit.offer(offer(3, of, 1, 1)).expect("not refused");
        assert_eq!((answer.verdict, answer.grant, answer.root_trip), (Verdict::RootLocked, 0, false), "{of}");
    }
    assert_eq!(unit.root_marks(root(0)), Marks { tripped: true, locked_by_user: false });
    let other = Offer { root: root(1), ..offer(4, UnitOfRoot::PutsTrailing, 1, 5) };
    assert_eq!(unit.offer(other).map(|answer| answer.grant), Ok(5), "the other root is free");
}

#[test]
fn symbol_zeroes_the_counts_of_all_four_units() {
    let mut unit = armed(
        "ABCD,abs_vol,XYZ,100\nABCD,rate_vol,XYZ,100,60000\nABCD,abs_ntnl,XYZ,100,,,C,T\nABCD,abs_vol,,1000,,T\nABCD,abs_vol,QQQ,100",
    );
    for (of, count) in UnitOfRoot::ALL.into_iter().zip([10, 20, 30, 40]) {
        assert_eq!(fill(&mut unit, 0, of, count), (count, false, false));
    }
    let other = Offer { root: root(1), ..offer(0, UnitOfRoot::PutsFront, 1, 7) };
    assert_eq!(unit.offer(other).map(|answer| answer.grant), Ok(7));
    let of_others = |unit: &ArmedUnit| {
        let of = |rule, of| unit.remaining(time(0), rule, of).expect("not refused");
        (of(2, UnitOfRoot::CallsTrailing), of(3, UnitOfRoot::CallsFront), left(unit, 0, 4))
    };
    assert_eq!([0, 1].map(|rule| left(&unit, 0, rule)), [[90, 80, 70, 60]; 2]);
    assert_eq!(of_others(&unit), (800_000, 893, [100, 100, 93, 100]));
    assert_eq!(unit.order(time(0), root(0), Reset::Symbol), Ok(Verdict::Free));
    assert_eq!([0, 1].map(|rule| left(&unit, 0, rule)), [[100; 4]; 2]);
    assert_eq!(of_others(&unit), (1_000_000, 893, [100, 100, 93, 100]), "the firm's count and the other root's stay");
}

#[test]
fn fills_on_another_unit_neither_cut_nor_trip() {
    for profile in ["ABCD,rate_vol,XYZ,100,1000", "ABCD,rate_count,XYZ,1,1000", "ABCD,rate_ntnl,XYZ,100,1000"] {
        let mut unit = armed(profile);
        for of in UnitOfRoot::ALL {
            assert_eq!(fill(&mut unit, 0, of, 100), (100, false, false), "{profile}");
        }
        assert_eq!(left(&unit, 999, 0), [0; 4], "{profile}");
        assert_eq!(fill(&mut unit, 999, UnitOfRoot::PutsFront, 1), (0, true, false), "{profile}");
    }
    let mut firm = armed("ABCD,abs_vol,,100,,T\nABCD,abs_vol,XYZ,100");
    assert_eq!(fill(&mut firm, 0, UnitOfRoot::CallsFront, 60), (60, false, false));
    assert_eq!(fill(&mut firm, 0, UnitOfRoot::PutsTrailing, 60), (40, false, true), "a firm rule counts them together");
    assert_eq!(left(&firm, 0, 1), [40, 100, 100, 60]);
}

#[test]
fn remaining_is_asked_on_a_units_own_of_the_rule_alone() {
    let mut unit = armed("ABCD,abs_vol,XYZ,100\nABCD,rate_vol,XYZ,70,1000,,P,F\nABCD,abs_count,,9,,T");
    assert!(unit.offer(offer(5, UnitOfRoot::PutsFront, 1, 3)).is_ok_and(|answer| !answer.cuts(contracts(3))));
    let row = |time, rule, of| raw::remaining(unit.memory(), time, rule, of)[..2].to_vec();
    for of in [0, 1, 2, 3, 4, 5, u64::MAX] {
        let whole = [100, 100, 97, 100].get(of as usize).map_or(vec![13, 0], |left| vec![0, *left]);
        let one = if of == 2 { vec![0, 67] } else { vec![13, 0] };
        let firm = if of == 0 { vec![0, 8] } else { vec![13, 0] };
        assert_eq!([row(5, 0, of), row(5, 1, of), row(5, 2, of), row(5, 3, of)], [whole, one, firm, vec![13, 0]], "unit {of}");
    }
    assert_eq!((row(4, 0, 4), row(86_400_000, 3, 0)), (vec![12, 0], vec![12, 0]), "12 comes before 13");
}
