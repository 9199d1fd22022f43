//! The lines of calls that keep the account, each next to that of the plain call.

use super::Line;

/// The lines whose calls are measured with the account kept too.
const KEPT: [&str; 8] = [
    "Order without reset, 6 rate rules, 50 entries",
    "Order without reset, 256 rules, 64 roots, no entry",
    "Offer, 6 covering rate rules, 50 entries",
    "Offer, 16 covering rules (6 root and 10 firm, 8 rate and 8 absolute), 512 entries",
    "Send, 6 covering rate rules, 50 entries, 0 orders away",
    "Send, 16 covering rules, 448 entries, 63 orders away",
    "Report of the last, 6 covering rate rules, 50 entries, 64 orders away",
    "Report of the last, 16 covering rules, 448 entries, 64 orders away",
];

/// All lines, with those of accounted calls after their plain ones.
pub fn with_accounted(lines: Vec<Line>) -> Vec<Line> {
    KEPT.iter().for_each(|name| assert!(lines.iter().any(|line| line.name == *name), "{name}"));
    lines.into_iter().flat_map(|line| [accounted(&line), Some(line)].into_iter().flatten().rev()).collect()
}

/// The line of the accounted call, if it is measured.
fn accounted(line: &Line) -> Option<Line> {
    if !KEPT.contains(&line.name.as_str()) {
        return None;
    }
    let accounted = Line {
        name: format!("Accounted: {}", line.name),
        call: line.call.clone().accounted(),
        state: line.state.clone(),
        unit: line.unit.clone(),
    };
    accounted.check();
    Some(accounted)
}
