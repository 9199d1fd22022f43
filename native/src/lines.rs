//! What is measured: each line is one call on one state, the same for the proved library, the hand-written calls and the second program.

mod accounts;
pub mod readings;

use second::account::{Account, NUMBERS as ACCOUNT};
use second::unit::{Away, Unit};

use crate::calls::{run_hand, run_library, run_unit};
use crate::scripts::{Kind, Step};
use crate::SIZE;

/// An account of zeros, which every line's call has beside it.
pub fn no_account() -> Vec<u64> {
    vec![0; ACCOUNT]
}

/// One line of the table: a call, and the state before it.
pub struct Line {
    pub name: String,
    pub call: Step,
    pub state: Vec<u64>,
    pub unit: Unit,
}

impl Line {
    /// A call on the state that some steps leave.
    fn new(name: String, before: &[Step], call: Step) -> Line {
        let (mut state, mut unit) = (vec![0; SIZE], Unit::new());
        for step in before {
            let row = run_library(step, &mut state, &mut [], &mut []);
            assert_eq!((row[0], run_unit(step, &mut unit, &mut Account::default(), &mut [])), (0, row), "{name}: {step}");
        }
        let line = Line { name, call, state, unit };
        line.check();
        line
    }

    /// All three answer alike and leave the same account and room, none refuses, and by hand the memory is left as by the library.
    fn check(&self) {
        let (mut one, mut other, mut unit) = (self.state.clone(), self.state.clone(), self.unit.clone());
        let (mut accounts, mut account) = ([no_account(), no_account()], Account::default());
        let mut rooms = [(); 3].map(|_| self.call.room());
        let [library_room, hand_room, second_room] = &mut rooms;
        let row = run_library(&self.call, &mut one, &mut accounts[0], library_room);
        assert_eq!((row[0], run_hand(&self.call, &mut other, &mut accounts[1], hand_room)), (0, row), "{}", self.name);
        assert_eq!((run_unit(&self.call, &mut unit, &mut account, second_room), one), (row, other), "{}", self.name);
        assert!(accounts[0] == accounts[1] && accounts[0] == account.rows.as_flattened(), "{}", self.name);
        assert!(rooms[0] == rooms[1] && rooms[0] == rooms[2], "{}", self.name);
    }

    /// Is it a call on a state, which has to be tested?
    pub fn tests_state(&self) -> bool {
        self.call.kind != Kind::Arm && self.call.kind != Kind::Clear
    }
}

/// The types of limit, rate and absolute in turn.
const TYPES: [&str; 6] = ["rate_vol", "abs_ntnl", "rate_ntnl", "abs_count", "rate_count", "abs_vol"];
/// A limit that nothing here reaches.
const WIDE: u64 = 1_000_000_000;

/// A profile: rate rules alone that cover unit 1 of the one root, `root` of it and `firm` of the firm.
pub fn rates(root: usize, firm: usize) -> Vec<u8> {
    let types = ["rate_vol", "rate_ntnl", "rate_count"];
    let line = |place: usize, rest: &str| format!("ABCD,{},{rest}\n", types[place % 3]);
    let roots = (0..root).map(|place| line(place, &format!("XYZ,{WIDE},60000")));
    roots.chain((0..firm).map(|place| line(place, &format!(",{WIDE},60000,T")))).collect::<String>().into_bytes()
}

/// A profile of as many rate as absolute rules, with windows of a second and of a minute: 6 of the root, half of them for unit 1 alone, and 10 of the
/// firm.
fn mixed() -> Vec<u8> {
    let window = |place: usize| if place % 4 == 0 { 1_000 } else { 60_000 };
    let line = |place: usize, root: &str, tail: &str| format!("ABCD,{},{root},{WIDE},{}{tail}\n", TYPES[place % 6], window(place));
    let roots = (0..6).map(|place| line(place, "XYZ", if place < 3 { "" } else { ",,C,T" }));
    roots.chain((0..10).map(|place| line(place, "", ",T"))).collect::<String>().into_bytes()
}

/// A profile of absolute rules alone, 3 of the root and 3 of the firm.
fn absolutes() -> Vec<u8> {
    let line = |place: usize, rest: &str| format!("ABCD,{},{rest}\n", TYPES[2 * place + 1]);
    (0..3).map(|place| line(place, &format!("XYZ,{WIDE}")) + &line(place, &format!(",{WIDE},,T"))).collect::<String>().into_bytes()
}

/// A profile of so many lines of all types, four of each root, one for each unit.
fn long(lines: usize) -> Vec<u8> {
    let tails = [",,C,F", ",,C,T", ",,P,F", ",,P,T"];
    let line = |n: usize| format!("ABCD,{},R{},{WIDE},60000{}\n", TYPES[n % 6], n / 4, tails[n % 4]);
    (0..lines).map(line).collect::<String>().into_bytes()
}

/// A profile of so many lines of all types, six of each root, all without call/put and month.
fn whole(lines: usize) -> Vec<u8> {
    let line = |n: usize| format!("ABCD,{},R{},{WIDE},60000\n", TYPES[n % 6], n / 6);
    (0..lines).map(line).collect::<String>().into_bytes()
}

/// Arms, and fills the log with so many entries, up to 60.8 seconds if there are 512, else a millisecond apart.
fn filled(profile: Vec<u8>, entries: u64) -> Vec<Step> {
    let apart = if entries == 512 { 117 } else { 1 };
    let fill = |n: u64| Step::new(Kind::Offer, &[1_000 + n * apart, 0, n % 4, 70_000, 5]);
    [Step::arm(profile)].into_iter().chain((0..entries).map(fill)).collect()
}

/// What is said of so many entries.
fn entries_in_words(entries: u64) -> String {
    match entries {
        0 => "no entry".into(),
        512 => "512 entries".into(),
        entries => format!("{entries} entries"),
    }
}

/// A time at which the oldest of 512 entries leaves, or at which all of fewer are inside a minute, and none is later.
fn time_after(entries: u64) -> u64 {
    if entries == 512 {
        61_000
    } else {
        2_000
    }
}

/// Offers, by covering rules and entries.
fn offers() -> Vec<Line> {
    let profiles = [
        ("1 covering rate rule", rates(1, 0)),
        ("6 covering rate rules", rates(3, 3)),
        ("16 covering rules (6 root and 10 firm, 8 rate and 8 absolute)", mixed()),
        ("16 covering rate rules (6 root and 10 firm)", rates(6, 10)),
    ];
    let mut lines = Vec::new();
    for (words, profile) in profiles {
        for entries in [0, 50, 512] {
            let name = format!("Offer, {words}, {}", entries_in_words(entries));
            let call = Step::new(Kind::Offer, &[time_after(entries), 0, 1, 70_000, 5]);
            lines.push(Line::new(name, &filled(profile.clone(), entries), call));
        }
    }
    let call = Step::new(Kind::Offer, &[2_000, 0, 1, 70_000, 5]);
    lines.push(Line::new("Offer, 6 covering absolute rules".into(), &filled(absolutes(), 50), call));
    let others = "Offer, 1 covering rule of 256, 64 roots, 50 entries";
    lines.push(Line::new(others.into(), &filled(long(256), 50), Step::new(Kind::Offer, &[2_000, 0, 0, 70_000, 5])));
    let wholes = "Offer, 6 covering rules of 256 without unit fields, 50 entries";
    lines.push(Line::new(wholes.into(), &filled(whole(256), 50), Step::new(Kind::Offer, &[2_000, 0, 1, 70_000, 5])));
    lines
}

/// Calls that do little beside the test of the state, on states from small to full.
fn small() -> Vec<Line> {
    let states = [
        ("3 rate rules, no entry", rates(2, 1), 0),
        ("6 rate rules, 50 entries", rates(3, 3), 50),
        ("16 rules, 512 entries", mixed(), 512),
        ("256 rules, 64 roots, no entry", long(256), 0),
        ("256 rules without unit fields, 43 roots, no entry", whole(256), 0),
    ];
    let mut lines = Vec::new();
    for (words, profile, entries) in states {
        let time = time_after(entries);
        let calls = [
            ("Status", Step::new(Kind::Status, &[])),
            ("Order without reset", Step::new(Kind::Order, &[time, 0, 0])),
            ("Order, reset BOTH", Step::new(Kind::Order, &[time, 0, 3])),
            ("Order, reset T and E", Step::new(Kind::Order, &[time, 0, 6])),
            ("Lockout of a root", Step::new(Kind::Lockout, &[time, 0, 0])),
            ("Remaining of a rate rule", Step::new(Kind::Remaining, &[time, 0, 0])),
        ];
        for (call_words, call) in calls {
            lines.push(Line::new(format!("{call_words}, {words}"), &filled(profile.clone(), entries), call));
        }
    }
    let last = "Remaining of the last rule, absolute, of 256 without unit fields, no entry";
    lines.push(Line::new(last.into(), &filled(whole(256), 0), Step::new(Kind::Remaining, &[2_000, 255, 3])));
    lines
}

/// Arms, fills the log with so many entries, and sends so many orders away after them, one report each; identities in no order.
fn sent(profile: Vec<u8>, entries: u64, orders: u64) -> Vec<Step> {
    let time = time_after(entries);
    let order = |n: u64| Away { identity: 40_503 * n % 65_536, root: 0, unit: 1, premium: 70_000, contracts: 50, reports: 1 };
    filled(profile, entries).into_iter().chain((0..orders).map(|n| Step::send(time, order(n)))).collect()
}

/// Sendings, reports, closings, and other calls on a full register.
fn aways() -> Vec<Line> {
    let states = [("6 covering rate rules, 50 entries", rates(3, 3), 50), ("16 covering rules, 448 entries", mixed(), 448)];
    let mut lines = Vec::new();
    for (words, profile, entries) in states {
        let time = time_after(entries);
        let full = [
            ("Status", Step::new(Kind::Status, &[])),
            ("Order without reset", Step::new(Kind::Order, &[time, 0, 0])),
            ("Report of the last", Step::new(Kind::Report, &[time, 40_503 * 63 % 65_536, 5])),
            ("Close of the first", Step::new(Kind::Close, &[time, 0])),
        ];
        for (call_words, call) in full {
            lines.push(Line::new(format!("{call_words}, {words}, 64 orders away"), &sent(profile.clone(), entries, 64), call));
        }
        let next = Away { identity: 7, root: 0, unit: 1, premium: 70_000, contracts: 50, reports: 1 };
        for orders in [0, 63] {
            let name = format!("Send, {words}, {orders} orders away");
            lines.push(Line::new(name, &sent(profile.clone(), entries, orders), Step::send(time, next)));
        }
    }
    let offer = Step::new(Kind::Offer, &[2_000, 0, 1, 70_000, 5]);
    lines.push(Line::new("Offer, 6 covering rate rules, 50 entries, 64 orders away".into(), &sent(rates(3, 3), 50, 64), offer));
    lines
}

/// Arm, by lines, and Clear.
fn arms() -> Vec<Line> {
    let words = |lines: usize| if lines == 1 { "Arm, 1 line, 1 root".into() } else { format!("Arm, {lines} lines, {} roots", lines / 4) };
    let arm = |lines: usize| Line::new(words(lines), &[], Step::arm(long(lines)));
    let clear = Line::new("Clear, 256 rules".into(), &[Step::arm(long(256))], Step::new(Kind::Clear, &[]));
    [1, 32, 256].map(arm).into_iter().chain([clear]).collect()
}

/// Profiles out, by lines, into just enough room.
fn profiles_out() -> Vec<Line> {
    let out = |(lines, profile): (usize, Vec<u8>)| {
        let mut unit = Unit::new();
        unit.arm(&profile);
        let size = unit.profile(&mut []).size;
        Line::new(format!("Profile, {lines} lines"), &[Step::arm(profile)], Step::new(Kind::Profile, &[size]))
    };
    [(6, rates(3, 3)), (256, long(256))].map(out).into()
}

/// All lines.
pub fn lines() -> Vec<Line> {
    let plain = small().into_iter().chain(offers()).chain(aways()).chain(arms()).chain(profiles_out());
    accounts::with_accounted(plain.collect())
}
