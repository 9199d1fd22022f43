//! Files that the desk reads and writes. None is written over by a slip, and none is left half written.

use crate::files::in_words;
use crate::profile::Profile;
use crate::records::spool::Spool;
use std::fs::File;
use std::io::{self, BufWriter, Read, Write};
use std::path::PathBuf;

/// A profile is read one byte past the longest, so that the library sees that it is too long.
pub const PROFILE_BYTES: u64 = 65_537;

/// The bytes of a profile.
pub fn profile(name: &str) -> Result<Vec<u8>, String> {
    let mut bytes = Vec::new();
    let read = File::open(name).and_then(|file| file.take(PROFILE_BYTES).read_to_end(&mut bytes));
    read.map(|_| bytes).map_err(|error| cannot_read(name, &error))
}

/// A file of records to be read from its start, and how many bytes it has, if that is known.
pub fn records(name: &str) -> Result<(Box<dyn Read>, Option<u64>), String> {
    let opened = File::open(name).and_then(|file| file.metadata().map(|about| (file, about)));
    let (file, about) = opened.map_err(|error| cannot_read(name, &error))?;
    if about.is_dir() {
        return Err(cannot_read(name, &io::ErrorKind::IsADirectory.into()));
    }
    let bytes = about.is_file().then_some(about.len());
    Ok((Box::new(file), bytes))
}

/// Writes a day's records; a file that is there already stays as it is, unless `over` says that it may be written over.
pub fn write_records(name: &str, day: &Spool, over: bool) -> Result<(), String> {
    may_keep(name, "save", over)?;
    let all = |to: &mut dyn Write| day.reader().and_then(|mut from| io::copy(&mut from, to)).map(drop);
    whole(name, all).map_err(|error| cannot_write(name, &error))
}

/// Writes a day in words; a file that is there already stays as it is, unless `over` says that it may be written over.
pub fn write_words(name: &str, profile: &Profile, day: &Spool, over: bool) -> Result<(), String> {
    may_keep(name, "save", over)?;
    let all = |to: &mut dyn Write| {
        let mut pieces = day.pieces().map_err(io::Error::other)?;
        in_words::write(profile, &mut pieces, to)
    };
    whole(name, all).map_err(|error| cannot_write(name, &error))
}

/// Writes a profile's text or an account's, for the command that asks; a file that is there already stays as it is, unless `over` says that it may be
/// written over.
pub fn write_text(name: &str, command: &str, text: &str, over: bool) -> Result<(), String> {
    may_keep(name, command, over)?;
    whole(name, |to| to.write_all(text.as_bytes())).map_err(|error| cannot_write(name, &error))
}

/// Writes records that are moved; a file that is there already stays as it is, unless `over` says that it may be written over.
pub fn write_moved(name: &str, command: &str, over: bool, write: impl Fn(&mut dyn Write) -> io::Result<()>) -> Result<(), String> {
    may_keep(name, command, over)?;
    whole(name, write).map_err(|error| match error.kind() {
        // what its own words say
        io::ErrorKind::Other => error.to_string(),
        _ => cannot_write(name, &error),
    })
}

/// Whether a command may write to a file of this name.
fn may_keep(name: &str, command: &str, over: bool) -> Result<(), String> {
    let there = std::fs::symlink_metadata(name);
    if there.as_ref().is_ok_and(|about| about.is_dir()) {
        return Err(cannot_write(name, &io::ErrorKind::IsADirectory.into()));
    }
    if !over && there.is_ok() {
        let again =
            if ["widen", "narrow"].contains(&command) { format!("{command} FILE {name} over") } else { format!("{command} {name} over") };
        return Err(format!("'{name}' is there already and is left alone; type {again} to write over it, or another name"));
    }
    Ok(())
}

/// What pages, JSON and CSV of the desk begin with, and nothing else is likely to.
pub const BEGINNINGS: [&str; 3] = [
    "<!DOCTYPE html>\n<html lang=\"en\"><head><meta charset=\"utf-8\"><meta name=\"generator\" content=\"desk\">",
    "{\"report\":\"desk\",\n",
    "report,desk\r\n",
];

/// No report's beginning is longer.
const LONGEST_BEGINNING: u64 = 200;

/// Whether a report may be written to a file: one that is there already is written over only if it is empty or begins as a report does. To be asked
/// before a long day is read.
pub fn may_report(name: &str) -> Result<(), String> {
    let mut held = Vec::new();
    let there = File::open(name).and_then(|file| file.take(LONGEST_BEGINNING).read_to_end(&mut held));
    let is_report = BEGINNINGS.iter().any(|beginning| held.starts_with(beginning.as_bytes()));
    if there.is_err() || held.is_empty() || is_report {
        return Ok(());
    }
    Err(format!("'{name}' is there and is no report of the desk's, so it is left alone; type another name"))
}

/// Writes a page or its figures to a file that may be written.
pub fn write_report(name: &str, text: &str) -> Result<(), String> {
    may_report(name)?;
    whole(name, |to| to.write_all(text.as_bytes())).map_err(|error| cannot_write(name, &error))
}

/// Writes a file in full under another name, and gives it its own name only then. What is no plain file, a device or a pipe, is written to.
fn whole(name: &str, write: impl Fn(&mut dyn Write) -> io::Result<()>) -> io::Result<()> {
    let path = std::fs::canonicalize(name).unwrap_or_else(|_| PathBuf::from(name));
    if std::fs::metadata(&path).is_ok_and(|there| !there.is_file()) {
        return File::options().write(true).open(&path).and_then(|mut file| write(&mut file));
    }
    let mut beside = path.clone().into_os_string();
    beside.push(format!(".{}.part", std::process::id()));
    let written = File::options().write(true).create_new(true).open(&beside).and_then(|file| {
        let mut buffered = BufWriter::new(file);
        write(&mut buffered)?;
        buffered.flush()
    });
    let named = written.and_then(|()| std::fs::rename(&beside, &path));
    if named.is_err() {
        // what was written in part is of no use; where it cannot be removed, nothing better can be done
        let _ = std::fs::remove_file(&beside);
    }
    named
}

fn cannot_read(name: &str, error: &io::Error) -> String {
    format!("'{name}' cannot be read ({}); type the name of a file that is there", reason(error))
}

fn cannot_write(name: &str, error: &io::Error) -> String {
    format!("'{name}' cannot be written ({}); type a name in a folder where you may write", reason(error))
}

/// Why a file could not be had, in words that are the same on every machine.
fn reason(error: &io::Error) -> String {
    match error.kind() {
        io::ErrorKind::NotFound => "no such file or folder".to_string(),
        io::ErrorKind::PermissionDenied => "not allowed".to_string(),
        io::ErrorKind::IsADirectory => "it is a folder".to_string(),
        _ => error.to_string(),
    }
}
