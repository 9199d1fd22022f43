//! Days as lines of text for programs in other languages: each call with what the second unit answers, and how the unit stands.

use std::fmt::Write;

use super::call::Call;
use super::events::events_near;
use super::profiles::{profile, valid_profile};
use crate::unit::{Armed, Away, Marks, Unit};

/// After how many calls a line says how the unit stands.
const STANDS: usize = 8;

/// A day from a seed: a line with the seed, then one call a line: its word, its numbers (Arm: the text's bytes to base 16), `=` and the row that the
/// second unit answers. The day begins with a profile that is accepted, and the calls come near its limits. Every so often a line says how the unit stands.
pub fn day(seed: u64, n: usize) -> String {
    let mut unit = Unit::new();
    let mut lines = format!("day {seed}\n{}", answered(Call::ArmValid { seed }, &mut unit));
    for (place, call) in events_near(seed, n, &valid_profile(seed)).into_iter().enumerate() {
        lines += &answered(call, &mut unit);
        if place % STANDS == 0 {
            lines += &stands(&unit);
        }
    }
    lines
}

/// A call's line.
fn answered(call: Call, unit: &mut Unit) -> String {
    let row = call.run(unit).iter().map(u64::to_string).collect::<Vec<_>>().join(" ");
    format!("{} = {row}\n", words(call))
}

/// A call's word and numbers.
fn words(call: Call) -> String {
    match call {
        Call::Arm { seed } => format!("arm {}", hex(&profile(seed))),
        Call::ArmValid { seed } => format!("arm {}", hex(&valid_profile(seed))),
        Call::Clear => "clear".to_string(),
        Call::Order { time, root, reset } => format!("order {time} {root} {reset}"),
        Call::Lockout { time, level, root } => format!("lockout {time} {level} {root}"),
        Call::Offer { time, root, unit, premium, contracts } => format!("offer {time} {root} {unit} {premium} {contracts}"),
        Call::Send { time, order: Away { identity, root, unit, premium, contracts, reports } } => {
            format!("send {time} {root} {unit} {premium} {contracts} {identity} {reports}")
        }
        Call::Report { time, identity, contracts } => format!("report {time} {identity} {contracts}"),
        Call::Close { time, identity } => format!("close {time} {identity}"),
        Call::Remaining { time, rule, unit } => format!("remaining {time} {rule} {unit}"),
        Call::Status => "status".to_string(),
        Call::Text { verdict, room } => format!("text {verdict} {room}"),
        Call::Profile { room } => format!("profile {room}"),
    }
}

/// How the unit stands: nothing more if it is not armed, else clock, number of rules, and the firm's and each root's name with its marks: tripped, locked
/// by the user.
fn stands(unit: &Unit) -> String {
    let Some(Armed { profile, clock, firm, roots, .. }) = &unit.armed else { return "stands\n".to_string() };
    let marked =
        |name: &[u8], marks: &Marks| format!(" {} {} {}", String::from_utf8_lossy(name), u8::from(marks.tripped), u8::from(marks.user));
    let mut line = format!("stands {clock} {}{}", profile.rules.len(), marked(&profile.firm, firm));
    profile.roots.iter().zip(roots).for_each(|(name, marks)| line += &marked(name, marks));
    line + "\n"
}

/// Bytes to base 16, `-` for none.
fn hex(bytes: &[u8]) -> String {
    if bytes.is_empty() {
        return "-".to_string();
    }
    bytes.iter().fold(String::new(), |mut text, byte| {
        let _ = write!(text, "{byte:02x}");
        text
    })
}
