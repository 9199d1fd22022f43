//! The report that a file gets: a page, or its figures as JSON or CSV.

use crate::files::disk;
use crate::files::given;
use crate::files::opened;
use crate::files::progress::Progress;
use crate::files::whole;
use crate::library::form::Form;
use crate::library::state::State;
use crate::profile::Profile;
use crate::records::sha256::{self, Sha256};
use crate::replay::day::Day;
use crate::report::export;
use crate::report::made::{Made, KIT, VERSION};
use crate::report::page;
use crate::words::counted;
use std::io::{self, Read};

/// What a file of this name gets: its end decides.
pub fn kind(file: &str) -> &'static str {
    match file.rsplit_once('.') {
        Some((_, "json")) => "figures as JSON",
        Some((_, "csv")) => "figures as CSV",
        _ => "a page",
    }
}

/// The report that a file of this name gets.
pub fn of_name(file: &str, profile: &Profile, day: &Day, made: &Made) -> String {
    match file.rsplit_once('.') {
        Some((_, "json")) => export::json(profile, day, made),
        Some((_, "csv")) => export::csv(profile, day, made),
        _ => page::page(profile, day, made),
    }
}

/// Reports a day of files, reading each record once; answers what to say of it.
pub fn of_files(profile_file: &str, (records_file, form): (&str, Form), to: &str, stretch: Option<(u64, u64)>) -> Result<String, String> {
    let text = given::profile(profile_file)?;
    if let Some(remark) = given::emptiness(profile_file, &text) {
        return Err(remark);
    }
    let armed = State::armed(&text);
    armed.map_err(|refused| format!("'{profile_file}' is refused: {}; desk check {profile_file} says more", refused))?;
    disk::may_report(to)?;
    let (from, bytes) = given::records(records_file)?;
    let mut summed = Summed { from, sum: Sha256::default() };
    let profile = Profile::of_accepted(&text);
    let (day, remark) = {
        let opened = opened::of_file(&mut summed, bytes, form, &profile);
        let mut opened = opened.map_err(|why| format!("'{records_file}' is left alone, since {why}"))?;
        let mut progress = Progress::of(bytes.filter(|_| !opened.are_words).map(|bytes| bytes.div_ceil(form.size() as u64)));
        let day = Day::replayed(&profile, &mut *opened.pieces, stretch, &mut progress).map_err(|why| format!("'{records_file}': {why}"))?;
        if !opened.are_words {
            let good = day.sums.records - day.sums.faulty;
            whole::is_day(day.sums.records, good).map_err(|why| format!("'{records_file}' is left alone, since {why}"))?;
        }
        (day, opened.remark)
    };
    if day.sums.records == 0 {
        return Err(format!("'{records_file}' holds no records, so there is nothing to report"));
    }
    let made = Made {
        profile: given::shown(profile_file).to_string(),
        profile_sum: sha256::hex(&text),
        records: vec![given::shown(records_file).to_string()],
        typed: 0,
        records_sum: summed.sum.hex(),
        version: VERSION,
        kit: KIT,
    };
    disk::write_report(to, &of_name(to, &profile, &day, &made))?;
    let all = counted(day.sums.records as usize, "record");
    let remark = remark.map_or_else(String::new, |remark| format!("; {remark}"));
    Ok(format!("wrote {} on {all} to {to}; {}{remark}", kind(to), day.sums.words()))
}

/// Bytes that are summed as they are read.
struct Summed {
    from: Box<dyn Read>,
    sum: Sha256,
}

impl Read for Summed {
    fn read(&mut self, room: &mut [u8]) -> io::Result<usize> {
        let count = self.from.read(room)?;
        self.sum.add(&room[..count]);
        Ok(count)
    }
}
