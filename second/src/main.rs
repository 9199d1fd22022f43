//! The program over the second unit: file `profile`, then records of 16 bytes from standard input.

use std::io::{self, BufRead, BufReader, BufWriter, Write};

use second::program;
use second::unit::{EventAnswer, Unit};

fn main() {
    // A closed output ends the program without a word.
    let _ = run(BufReader::new(io::stdin().lock()), BufWriter::new(io::stdout().lock()));
}

/// Arms, then answers each record with a line.
fn run(mut input: impl BufRead, mut output: impl Write) -> io::Result<()> {
    let mut unit = Unit::new();
    let answer = unit.arm(&program::profile_text());
    let Some(armed) = &unit.armed else {
        writeln!(output, "refused {} {}", answer.refusal, answer.line)?;
        return output.flush();
    };
    let firm = String::from_utf8_lossy(&armed.profile.firm);
    writeln!(output, "armed {} {} {}", firm, answer.rules, answer.roots)?;
    let mut place = 0u64;
    while let Some(bytes) = program::next_record(&mut input) {
        place += 1;
        let [refusal, verdict, grant, root_trip, firm_trip] = answer_record(&mut unit, &bytes).numbers();
        writeln!(output, "{place} {refusal} {verdict} {grant} {root_trip} {firm_trip}")?;
    }
    output.flush()
}

/// Runs the call of one record.
fn answer_record(unit: &mut Unit, bytes: &[u8]) -> EventAnswer {
    program::event(bytes).map_or_else(EventAnswer::refused, |event| event.run(unit))
}
