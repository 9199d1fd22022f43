//! The evening table over the second unit: file `profile`, then records of 16 bytes from standard input, and at their end the day's account.

use std::io::{self, BufReader, BufWriter, Read, Write};

use second::account::{Account, Figures, FIRM_ROW};
use second::program;
use second::unit::Unit;

fn main() {
    // A closed output ends the program without a word.
    let _ = run(BufReader::new(io::stdin().lock()), BufWriter::new(io::stdout().lock()));
}

/// Arms, takes all records, and prints a line for each root and one for the firm.
fn run(mut input: impl Read, mut output: impl Write) -> io::Result<()> {
    let mut unit = Unit::new();
    let answer = unit.arm(&program::profile_text());
    if answer.refusal != 0 {
        writeln!(output, "refused {} {}", answer.refusal, answer.line)?;
        return output.flush();
    }
    let account = account(&mut unit, &mut input);
    if let Some(armed) = &unit.armed {
        for (name, figures) in armed.profile.roots.iter().zip(&account.rows) {
            writeln!(output, "{}", line(name, figures))?;
        }
        writeln!(output, "{}", line(&armed.profile.firm, &account.rows[FIRM_ROW]))?;
    }
    output.flush()
}

/// The account of the input's records; one that is faulty or refused is counted nowhere.
fn account(unit: &mut Unit, input: &mut impl Read) -> Account {
    let mut account = Account::default();
    while let Some(bytes) = program::next_record(input) {
        if let Ok(event) = program::event(&bytes) {
            account.run(unit, event);
        }
    }
    account
}

/// A name and its figures.
fn line(name: &[u8], figures: &Figures) -> String {
    figures.iter().fold(String::from_utf8_lossy(name).into_owned(), |line, figure| format!("{line} {figure}"))
}
