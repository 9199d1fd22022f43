//! The program over the hand-written calls: file `profile`, then records from standard input, one line each.

pub mod seen;

use std::fs::File;
use std::io::{self, Read, Write};

use crate::{hand, Row, SIZE};

/// The longest profile, and the bytes of a record.
const MOST_BYTES: u64 = 65_536;
pub const BYTES: usize = 16;
/// How much is read at once.
const BLOCK: usize = 16 * 4_096;
/// The microseconds of a millisecond.
const MICROSECONDS: u64 = 1_000;

/// Arms, then answers each record with a line.
pub fn run(input: impl Read, mut output: impl Write) -> io::Result<()> {
    let mut m = vec![0; SIZE];
    let [refusal, line, firm, rules, roots] = hand::arm(&mut m, &profile());
    if refusal != 0 {
        return writeln!(output, "refused {refusal} {line}");
    }
    let firm = firm.to_be_bytes();
    let name = firm.iter().skip_while(|byte| **byte == 0).map(|byte| char::from(*byte)).collect::<String>();
    writeln!(output, "armed {name} {rules} {roots}")?;
    answer_all(&mut m, input, output)
}

/// The profile, with one byte beyond the longest so that a longer one is seen; empty if it can't be read.
fn profile() -> Vec<u8> {
    let mut text = Vec::new();
    let read = File::open("profile").and_then(|file| file.take(MOST_BYTES + 1).read_to_end(&mut text));
    if read.is_err() {
        text.clear();
    }
    text
}

/// Answers the records of the input, block by block.
fn answer_all(m: &mut [u64], mut input: impl Read, mut output: impl Write) -> io::Result<()> {
    let (mut block, mut lines, mut place) = (Vec::with_capacity(BLOCK), Vec::new(), 0);
    loop {
        block.clear();
        let length = input.by_ref().take(BLOCK as u64).read_to_end(&mut block)?;
        lines.clear();
        for record in block.chunks(BYTES) {
            place += 1;
            put_line(&mut lines, place, answer(m, record));
        }
        output.write_all(&lines)?;
        if length < BLOCK {
            return output.flush();
        }
    }
}

/// The row of one record, whose time counts in whole milliseconds.
fn answer(m: &mut [u64], record: &[u8]) -> Row {
    let [refusal, kind, time, root, unit, premium, contracts, reset, level, identity, reports, ..] = hand::read_record16(record);
    let time = time / MICROSECONDS;
    match (refusal, kind) {
        (0, 0) => hand::order(m, time, root, reset),
        (0, 1) => hand::offer(m, time, root, unit, premium, contracts),
        (0, 2) => hand::lockout(m, time, level, root),
        (0, 3) => hand::send(m, time, root, unit, premium, contracts, identity, reports),
        (0, 4) => hand::report(m, time, identity, contracts),
        (0, _) => hand::close(m, time, identity),
        _ => [refusal, 0, 0, 0, 0],
    }
}

/// Puts a record's line: its place and the row.
fn put_line(lines: &mut Vec<u8>, place: u64, row: Row) {
    put_number(lines, place);
    for number in row {
        lines.push(b' ');
        put_number(lines, number);
    }
    lines.push(b'\n');
}

/// Puts a number in digits.
fn put_number(lines: &mut Vec<u8>, mut number: u64) {
    let (mut digits, mut at) = ([0; 20], 20);
    loop {
        at -= 1;
        digits[at] = b'0' + (number % 10) as u8;
        number /= 10;
        if number == 0 {
            break;
        }
    }
    lines.extend_from_slice(&digits[at..]);
}
