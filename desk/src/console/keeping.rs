//! What the desk keeps: saving a day, replaying one, writing its report.

use crate::answers::answer;
use crate::answers::evening;
use crate::files::disk;
use crate::files::opened;
use crate::files::progress::Progress;
use crate::files::whole::Whole;
use crate::library::form::Form;
use crate::replay::day::Day;
use crate::report;
use crate::session::sitting::Sitting;
use crate::session::sums::Sums;
use crate::typed::command::Kept;
use crate::typed::names::Names;
use crate::words::{self, counted};
use mbrumzheg::Time;
use std::io::{self, Write};

/// Writes the day to a file, as records or in words.
pub fn save(sitting: &mut Sitting, Kept { file, over }: &Kept, in_words: bool) -> Result<String, String> {
    let pieces = sitting.day.records() as usize;
    let mut text = if in_words {
        disk::write_words(file, &sitting.profile, &sitting.day, *over)?;
        format!("saved {} in words to {file}", counted(pieces, "event"))
    } else {
        disk::write_records(file, &sitting.day, *over)?;
        format!("saved {} to {file}", counted(pieces, "record"))
    };
    sitting.unsaved = 0;
    if let Some(place) = sitting.day.filled().first() {
        text.push_str(&format!(
            "; record {place} came short, and was filled up with bytes 255 so that those after it keep their places: it is faulty as before"
        ));
    }
    Ok(text)
}

/// The active rules as a profile has them.
pub fn profile(sitting: &Sitting) -> Result<String, String> {
    let text = sitting.active()?;
    Ok(text.trim_end().to_string())
}

/// Writes them to a file, which arms a state with the same rules.
pub fn save_profile(sitting: &Sitting, Kept { file, over }: &Kept) -> Result<String, String> {
    let text = sitting.active()?;
    disk::write_text(file, "profile", &text, *over)?;
    Ok(format!("saved {} to {file}", counted(text.lines().count(), "rule")))
}

/// Writes the day's account to a file, as a table of commas.
pub fn save_account(sitting: &Sitting, Kept { file, over }: &Kept) -> Result<String, String> {
    disk::write_text(file, "account", &evening::csv(&sitting.profile, &sitting.account), *over)?;
    Ok(format!("saved the account of {} and the firm to {file}", counted(sitting.profile.roots.len(), "root")))
}

/// Writes a page on the day, or on a stretch of it, to a file.
pub fn report(sitting: &Sitting, file: &str, stretch: Option<(String, String)>) -> Result<String, String> {
    let names = Names::of(sitting);
    let stretch = stretch.map(|(from, to)| names.stretch(&from, &to)).transpose()?;
    if sitting.place == 0 {
        return Err("there is nothing to report yet; type offer, order, lock or replay first".to_string());
    }
    disk::may_report(file)?;
    let mut progress = Progress::of(Some(sitting.day.records()));
    let day = Day::replayed(&sitting.profile, &mut sitting.day.pieces()?, stretch, &mut progress)?;
    let made = report::Made::at_the_desk(sitting);
    disk::write_report(file, &report::of_name(file, &sitting.profile, &day, &made))?;
    Ok(format!("wrote {} on {} to {file}", report::kind(file), counted(sitting.place, "record")))
}

/// Passes the events of a file, and shows their answers or, where it is `quiet`, those of them that did not simply pass. Nothing is passed where one of them
/// cannot be read.
pub fn replay(sitting: &mut Sitting, file: &str, form: Form, quiet: bool, out: &mut dyn Write) -> io::Result<Result<String, String>> {
    match read(sitting, file, form) {
        Ok((whole, remark)) => pass_all(sitting, file, &whole, remark, quiet, out),
        Err(advice) => Ok(Err(advice)),
    }
}

/// A file read to its end on a copy of the state; and what its length says of the last record.
fn read(sitting: &Sitting, file: &str, form: Form) -> Result<(Whole, Option<String>), String> {
    let left_alone = |why: String| format!("'{file}' is left alone, since {why}");
    let (from, bytes) = disk::records(file)?;
    let mut opened = opened::of_file(from, bytes, form, &sitting.profile).map_err(left_alone)?;
    let whole = Whole::read(&mut opened, sitting.state().copied(), sitting.account.clone()).map_err(left_alone)?;
    Ok((whole, opened.remark))
}

/// Passes the records of a file, and shows their answers.
fn pass_all(
    sitting: &mut Sitting,
    file: &str,
    whole: &Whole,
    remark: Option<String>,
    quiet: bool,
    out: &mut dyn Write,
) -> io::Result<Result<String, String>> {
    let clock = sitting.clock();
    let (mut sums, mut late) = (Sums::default(), false);
    let mut progress = Progress::of(Some(whole.count() as u64));
    let mut pieces = whole.pieces().map_err(io::Error::other)?;
    sitting.sources.replayed.push(file.to_string());
    while let Some(piece) = pieces.next(Time::START).map_err(io::Error::other)? {
        late |= sums.records == 0 && piece.event().is_some_and(|event| event.time() < clock);
        let passed = sitting.pass_piece(&piece);
        sums.take(&passed);
        progress.step();
        if !quiet || passed.is_notable() {
            progress.hide();
            writeln!(out, "{}", answer::replayed(sitting, &passed))?;
        }
    }
    let late = late.then(|| {
        format!("that day begins before the unit's clock, {}: type clear and arm FILE to replay it from its start", words::time(clock))
    });
    let remarks: String = late.into_iter().chain(remark).map(|remark| format!("; {remark}")).collect();
    Ok(Ok(format!("replayed {}{remarks}", sums.words())))
}
