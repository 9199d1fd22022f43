//! What a person at a terminal sees: 80 columns, colour by what a line says, help on everything.
mod common;
#[path = "common/terminal.rs"]
mod terminal;
use common::{event, profile, Dice};
use desk::answers::table;
use desk::console::paint::{paint, Painter};
use desk::library::state::State;
use desk::program::USAGE;
use desk::session::sitting::Sitting;
use desk::typed::help;
use desk::typed::shown::Shown;
use desk::typed::topics;
use mbrumzheg::{Refusal, Time};
use std::io::Write;

fn sitting(text: &str) -> Sitting {
    let state = State::armed(text.as_bytes()).unwrap_or_else(|refused| panic!("{refused}\n{text}"));
    Sitting::new(state, "profile", text.as_bytes())
}

fn widest(text: &str) -> usize {
    text.lines().map(|line| line.chars().count()).max().unwrap_or(0)
}

#[test]
fn tables_fit_80_columns() {
    for seed in 0..300 {
        let mut dice = Dice::new(seed);
        let mut sitting = sitting(&profile(&mut dice));
        for _ in 0..20 {
            let next = event(&mut dice, sitting.clock().ms(), sitting.state().root_count());
            sitting.pass(next);
        }
        let text = table::rules(&sitting, sitting.clock(), Shown::All).expect("a table");
        assert!(widest(&text) <= 80, "{text}");
        assert_eq!(text.lines().filter(|line| line.ends_with('%')).count(), sitting.profile.counts.len(), "{text}");
    }
}

#[test]
fn the_widest_rules_fit_80_columns_and_say_everything() {
    let mut text = String::new();
    for root in 0..42 {
        for _ in 0..6 {
            text.push_str(&format!("ABCD,rate_ntnl,LONG{root:02},100000000000,86399999,,C,T\n"));
        }
    }
    let sitting = sitting(&text);
    let table = table::rules(&sitting, Time::START, Shown::All).expect("a table");
    assert!(widest(&table) <= 80, "{table}");
    for wanted in
        ["rule 251", "rate_ntnl $100,000,000,000 in 86,399,999 ms of LONG41 call trailing", "left $100,000,000,000", "[1000000000000000]"]
    {
        assert!(table.contains(wanted), "{wanted} in {table}");
    }
}

#[test]
fn help_fits_80_columns_and_is_there_for_every_command() {
    assert!(widest(&help::list()) <= 80 && widest(USAGE) <= 80);
    for name in help::names() {
        let text = help::on(name).unwrap_or_else(|| panic!("no help on {name}"));
        assert!(widest(&text) <= 80, "{text}");
    }
    for topic in &topics::COMMANDS {
        assert!(help::list().contains(topic.form) && topic.form.starts_with(topic.name), "{}", topic.name);
        for example in topic.examples {
            assert!(example.starts_with(topic.name) && desk::typed::command::read(example).is_ok(), "{example}");
        }
    }
    let refusals = help::on("refusals").expect("help").replace("\n     ", " ");
    for refusal in Refusal::ALL {
        assert!(refusals.contains(&format!("{:>3}  {}", refusal.number(), refusal.sentence())), "{refusals}");
    }
}

#[test]
fn lines_are_painted_by_what_they_say() {
    let red = |line: &str| line.starts_with("\x1b[31m");
    let yellow = |line: &str| line.starts_with("\x1b[33m");
    let green = |line: &str| line.starts_with("\x1b[32m");
    assert!(green(&paint("granted all 450 at $7.00  [1 0 0 450 0 0]")));
    assert!(yellow(&paint("granted 50 of 200 at $7.00, cut by rule 0 rate_vol 500 in 1 s of XYZ; root XYZ tripped  [2 0 0 50 1 0]")));
    assert!(red(&paint("rejected, root XYZ is tripped (s: RiskMgmtSymLevel)  [3 0 2 0 0 0]")));
    assert!(red(&paint("refused with 12: the time is no time of the day")));
    assert!(red(&paint("    |      ^^^^^^^^^^")) && yellow(&paint("    | warning: the limit is 1")));
    assert_eq!(paint("  2 | ABCD,abs_volume,XYZ,1000"), "  2 | ABCD,abs_volume,XYZ,1000");
    assert_eq!(paint("clock 0ms"), "clock 0ms");
    assert!(paint("firm free  [0 1 1 1]").ends_with("\x1b[2m  [0 1 1 1]\x1b[0m"));
    let mut out = Vec::new();
    let mut painter = Painter::new(&mut out);
    write!(painter, "> ").and_then(|()| painter.flush()).expect("a prompt");
    write!(painter, "granted all 1\nstatus\n").expect("lines");
    drop(painter);
    assert_eq!(String::from_utf8_lossy(&out), "> \x1b[32mgranted all 1\x1b[0m\nstatus\n");
}

/// The desk at a terminal of its own, until it was asked to quit: twice, since an order was not saved.
fn at_a_terminal(environment: &[(&str, &str)]) -> Option<String> {
    let place = std::path::Path::new(env!("CARGO_MANIFEST_DIR")).join("tests/scripts");
    let steps = [("> ", "arm example-profile\n"), ("armed for", "order 0ms XYZ\n"), ("may pass", "quit\n"), ("not saved", "quit\n")];
    terminal::said(env!("CARGO_BIN_EXE_desk"), &place, environment, &steps)
}

#[test]
fn colour_is_for_terminals_that_want_it() {
    let Some(painted) = at_a_terminal(&[]) else { return };
    assert!(painted.contains("\x1b[32marmed for firm ABCD"), "{painted:?}");
    for environment in [("NO_COLOR", "1"), ("TERM", "dumb")] {
        let plain = at_a_terminal(&[environment]).expect("a terminal");
        assert!(plain.contains("armed for firm ABCD") && !plain.contains('\x1b'), "{plain:?}");
    }
}
