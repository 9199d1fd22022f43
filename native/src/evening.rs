//! The evening table over the library's calls: from a profile and a day's records, the figures of each root and of the firm.

use second::account::{FIGURES, FIRM_ROW, NUMBERS};
use second::place::{FIRM, ROOTS, ROOT_COUNT};

use crate::program::BYTES;
use crate::{Row, SIZE};

/// The microseconds of a millisecond.
const MICROSECONDS: u64 = 1_000;

/// `refused`, number and line, or a line for each root and for the firm: its name and its figures.
pub fn table(profile: &[u8], records: &[u8]) -> String {
    let (mut m, mut account) = (vec![0; SIZE], vec![0; NUMBERS]);
    let [refusal, line, ..] = crate::arm(&mut m, profile);
    if refusal != 0 {
        return format!("refused {refusal} {line}\n");
    }
    for record in records.chunks(BYTES) {
        accounted(&mut m, &mut account, record);
    }
    let roots = (0..m[ROOT_COUNT] as usize).map(|root| (m[ROOTS + root], root));
    roots.chain([(m[FIRM], FIRM_ROW)]).map(|(name, row)| row_in_words(name, &account[FIGURES * row..][..FIGURES])).collect()
}

/// Runs the call of a record, whose time counts in whole milliseconds, with the account kept.
fn accounted(m: &mut [u64], account: &mut [u64], record: &[u8]) -> Row {
    let [refusal, kind, time, root, unit, premium, contracts, reset, level, identity, reports, ..] = crate::read_record16(record);
    let time = time / MICROSECONDS;
    match (refusal, kind) {
        (0, 0) => crate::accounted_order(m, account, time, root, reset),
        (0, 1) => crate::accounted_offer(m, account, time, root, unit, premium, contracts),
        (0, 2) => crate::accounted_lockout(m, account, time, level, root),
        (0, 3) => crate::accounted_send(m, account, time, root, unit, premium, contracts, identity, reports),
        (0, 4) => crate::accounted_report(m, account, time, identity, contracts),
        (0, _) => crate::accounted_close(m, account, time, identity),
        _ => [refusal, 0, 0, 0, 0],
    }
}

/// A line of the table; a name is a number of its bytes.
fn row_in_words(name: u64, figures: &[u64]) -> String {
    let name: String = name.to_be_bytes().into_iter().skip_while(|byte| *byte == 0).map(char::from).collect();
    let figures: String = figures.iter().map(|figure| format!(" {figure}")).collect();
    format!("{name}{figures}\n")
}
