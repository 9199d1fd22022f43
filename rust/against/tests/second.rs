//! The typed calls against the independent second program, on random days: answers, Remaining, Status, clock, names, marks
//! and the profile that is written back.
use mbrumzheg::{
    Armed, Closing, Contracts, Event, Identity, Level, Offer, Premium, Refusal, Report, Reports, Reset, Root, Scope, Sending, Time, Unit,
    UnitOfRoot, PROFILE_MOST,
};
use second::profile::Level as SecondLevel;
use second::unit::Away;
use std::collections::BTreeSet;

/// Numbers that look random and are the same on every run.
struct Dice(u64);

impl Dice {
    fn below(&mut self, end: u64) -> u64 {
        self.0 = self.0.wrapping_mul(6_364_136_223_846_793_005).wrapping_add(1_442_695_040_888_963_407);
        (self.0 >> 24) % end
    }

    fn pick<T: Copy>(&mut self, among: &[T]) -> T {
        among[self.below(among.len() as u64) as usize]
    }
}

/// A profile that is accepted, of root rules and firm rules.
fn profile(dice: &mut Dice) -> String {
    let mut text = String::new();
    for _ in 0..1 + dice.below(8) {
        let kind = dice.pick(&["rate_ntnl", "rate_vol", "rate_count", "abs_ntnl", "abs_vol", "abs_count"]);
        let limit = dice.pick(&[1, 7, 60, 400, 3_000]);
        let window = dice.pick(&["", "0", "150", "1000"]);
        let place = text.lines().count() as u64;
        match dice.below(4) {
            0 => text.push_str(&format!("ABCD,{kind},,{limit},{window},T\n")),
            // two rules a root, so that none has too many
            _ => text.push_str(&format!("ABCD,{kind},R{},{limit},{window}{}\n", place / 2, dice.pick(&["", ",,C,F", ",,P,T"]))),
        }
    }
    text
}

fn event(dice: &mut Dice, clock: u64) -> Event {
    let back = u64::from(dice.below(30) == 0);
    let time = Time::from_ms((clock + dice.pick(&[0, 0, 3, 60, 200])).saturating_sub(back)).expect("a time");
    let root = Root::new(dice.below(5)).expect("a root");
    let unit = dice.pick(&UnitOfRoot::ALL);
    let premium = Premium::from_ten_thousandths(dice.pick(&[1, 9_999, 20_000, 100_000_000])).expect("a premium");
    let contracts = Contracts::new(dice.pick(&[1, 5, 50, 1_000])).expect("contracts");
    let identity = Identity::new(dice.pick(&[0, 1, 2, 65_535])).expect("an identity");
    let reports = Reports::new(dice.pick(&[1, 2, 16])).expect("reports");
    match dice.below(18) {
        0 => Event::Lockout { time, level: dice.pick(&[Level::Firm, Level::Root(root)]) },
        1..=4 => Event::Order { time, root, reset: dice.pick(&Reset::ALL) },
        5..=6 => Event::Send(Sending { time, root, unit, premium, contracts, identity, reports }),
        7..=9 => Event::Report(Report { time, identity, contracts }),
        10 => Event::Close(Closing { time, identity }),
        _ => Event::Offer(Offer { time, root, unit, premium, contracts }),
    }
}

/// What the second program answers to the same event: refusal, verdict, grant, root trip, firm trip.
fn answered(unit: &mut second::unit::Unit, event: &Event) -> [u64; 5] {
    match *event {
        Event::Order { time, root, reset } => unit.order(time.ms(), root.number(), reset.number()),
        Event::Lockout { time, level } => unit.lockout(time.ms(), level.number(), level.root_number()),
        Event::Offer(Offer { time, root, unit: of_root, premium, contracts }) => {
            unit.offer(time.ms(), root.number(), of_root.number(), premium.ten_thousandths(), contracts.count())
        }
        Event::Send(Sending { time, root, unit: of_root, premium, contracts, identity, reports }) => {
            let order = Away {
                identity: identity.number(),
                root: root.number(),
                unit: of_root.number(),
                premium: premium.ten_thousandths(),
                contracts: contracts.count(),
                reports: reports.count(),
            };
            unit.send(time.ms(), order)
        }
        Event::Report(Report { time, identity, contracts }) => unit.report(time.ms(), identity.number(), contracts.count()),
        Event::Close(Closing { time, identity }) => unit.close(time.ms(), identity.number()),
    }
    .numbers()
}

/// What may be asked of a unit is the same in both.
fn compare(unit: &Unit<Box<[u64]>, Armed>, other: &second::unit::Unit) {
    let armed = other.armed.as_ref().expect("armed");
    assert_eq!(unit.clock().ms(), armed.clock);
    let status = unit.status().expect("a sound state");
    let lowest = status.lowest_locked.map_or(64, |root| root.number());
    assert_eq!([0, status.tripped, status.locked_by_user, status.locked, lowest], other.status().numbers());
    let marks = unit.firm_marks();
    assert_eq!((marks.tripped, marks.locked_by_user), (armed.firm.tripped, armed.firm.user));
    assert_eq!(unit.root_count(), armed.roots.len() as u64);
    for ((root, name), (marks, known)) in unit.roots().zip(armed.roots.iter().zip(&armed.profile.roots)) {
        assert_eq!(name.as_str().as_bytes(), known);
        assert_eq!(unit.root_named(name.as_str()), Some(root));
        assert_eq!((unit.root_marks(root).tripped, unit.root_marks(root).locked_by_user), (marks.tripped, marks.user));
    }
    for rule in 0..=unit.rule_count() {
        for later in [0, 1, 149, 1_000] {
            let time = Time::from_ms(armed.clock + later).expect("a time");
            for of in UnitOfRoot::ALL {
                let wanted = other.remaining(time.ms(), rule, of.number()).numbers();
                assert_eq!(unit.remaining(time, rule, of).map_or_else(|refusal| [refusal.number(), 0], |left| [0, left]), wanted);
            }
        }
    }
}

/// The rules are the second program's, each with the name that its line has.
fn same_rules(unit: &Unit<Box<[u64]>, Armed>, other: &second::unit::Unit) {
    let known = &other.armed.as_ref().expect("armed").profile.rules;
    assert_eq!(unit.rules().count(), known.len());
    assert_eq!(unit.rule(known.len() as u64), None);
    for (place, (rule, known)) in unit.rules().zip(known).enumerate() {
        assert_eq!((rule.number, rule.limit, rule.window), (place as u64, known.limit, known.window));
        assert_eq!(format!("{:?}", rule.measure), format!("{:?}", known.measure));
        let level = match rule.scope {
            Scope::Firm => SecondLevel::Firm,
            Scope::Root(root) => SecondLevel::Root { root: root.number(), unit: None },
            Scope::Unit(root, of_root) => SecondLevel::Root { root: root.number(), unit: Some(of_root.number()) },
        };
        assert_eq!(level, known.level);
        for of in UnitOfRoot::ALL {
            let wanted = if rule.scope.units().contains(&of) { Ok(rule.limit) } else { Err(Refusal::Unknown) };
            assert_eq!(unit.remaining(Time::START, rule.number, of), wanted);
        }
    }
}

/// The rules are written back as the second program writes them, and one byte of room less is refused with the size.
fn same_text(unit: &Unit<Box<[u64]>, Armed>, other: &second::unit::Unit) -> String {
    let mut room = [0; PROFILE_MOST];
    let answer = other.profile(&mut room);
    let text = unit.profile().expect("a sound state");
    assert_eq!((0, text.as_bytes()), (answer.refusal, &room[..answer.size as usize]));
    assert_eq!(unit.profile_into(&mut [0; PROFILE_MOST]), Ok(text.as_str()));
    let refused = unit.profile_into(&mut room[..text.len() - 1]).expect_err("one byte is missing");
    assert_eq!(
        [refused.refusal.number(), refused.needed.map_or(0, |size| size as u64)],
        other.profile(&mut vec![0; text.len() - 1]).numbers()
    );
    text
}

#[test]
fn random_days_are_answered_as_the_second_program_answers_them() {
    let (mut seen, mut refusals) = ([0; 5], BTreeSet::new());
    for seed in 0..300 {
        let mut dice = Dice(seed);
        let text = profile(&mut dice);
        let mut unit = Unit::new().arm(&text).unwrap_or_else(|refused| panic!("{refused}\n{text}"));
        let mut other = second::unit::Unit::new();
        assert_eq!(other.arm(text.as_bytes()).refusal, 0);
        same_rules(&unit, &other);
        for _ in 0..60 {
            let next = event(&mut dice, unit.clock().ms());
            let row = match unit.answer(next) {
                Ok(a) => [0, a.verdict.number(), a.grant, a.root_trip.into(), a.firm_trip.into()],
                Err(refusal) => [refusal.number(), 0, 0, 0, 0],
            };
            assert_eq!(row, answered(&mut other, &next), "{next:?}\n{text}");
            compare(&unit, &other);
            seen.iter_mut().zip(row).for_each(|(count, number)| *count += u64::from(number > 0));
            refusals.insert(row[0]);
        }
        same_text(&unit, &other);
    }
    assert!(seen.iter().all(|count| *count > 100), "refusals, verdicts, grants and trips came up: {seen:?}");
    assert!(refusals.into_iter().eq([0, 12, 13, 18, 19]), "and the refusals of a day that never fills log or register");
}

#[test]
fn the_rules_of_generated_profiles_are_the_second_programs() {
    let mut types = BTreeSet::new();
    for seed in 0..2_000 {
        let text = second::gen::valid_profile(seed);
        let mut other = second::unit::Unit::new();
        assert_eq!(other.arm(&text).refusal, 0);
        let unit = Unit::new().arm(&text).unwrap_or_else(|refused| panic!("{refused}"));
        same_rules(&unit, &other);
        let again = Unit::new().arm(same_text(&unit, &other)).unwrap_or_else(|refused| panic!("{refused}"));
        assert_eq!(again.memory(), unit.memory(), "what is written back arms the same unit");
        let lines = text.split(|byte| *byte == b'\n');
        for (rule, line) in unit.rules().zip(lines) {
            let named = line.split(|byte| *byte == b',').nth(1).expect("a type");
            assert_eq!(rule.type_name().as_bytes(), named);
            types.insert((rule.type_name(), matches!(rule.scope, Scope::Firm), matches!(rule.scope, Scope::Unit(..))));
        }
    }
    assert_eq!(types.len(), 18, "each type for the firm, a root and a unit: {types:?}");
}
