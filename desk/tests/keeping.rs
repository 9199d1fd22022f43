//! What the desk keeps: a saved day is never written over by a slip, every record keeps its bytes and its place, and nothing typed is lost without a word.
mod common;
use common::{profile, recorded, Dice};
use desk::console::lines::{run, Ended, Manner};
use desk::library::form::Form;
use mbrumzheg::Event;
use std::fs;
use std::path::PathBuf;
use std::process::{Command, Stdio};

/// A folder of its own, gone at the end.
struct Place(PathBuf);

impl Place {
    fn new(name: &str) -> Place {
        let place = std::env::temp_dir().join(format!("desk-keeping-{name}-{}", std::process::id()));
        fs::create_dir_all(&place).expect("a folder");
        fs::write(place.join("profile"), "ABCD,abs_vol,XYZ,1000\n").expect("written");
        Place(place)
    }

    fn path(&self, name: &str) -> String {
        self.0.join(name).to_string_lossy().into_owned()
    }

    /// Runs lines in which `@name` is a file here.
    fn run(&self, lines: &str, manner: Manner) -> (String, Ended) {
        let lines = lines.replace('@', &format!("{}/", self.0.display()));
        let mut out = Vec::new();
        let ended = run(&mut lines.as_bytes(), &mut out, manner).expect("memory takes every answer");
        (String::from_utf8(out).expect("text").replace(&format!("{}/", self.0.display()), "@"), ended)
    }
}

impl Drop for Place {
    fn drop(&mut self) {
        fs::remove_dir_all(&self.0).expect("removed");
    }
}

#[test]
fn a_profile_that_is_there_is_written_over_only_if_that_is_said() {
    let place = Place::new("active");
    let given = "ABCD,abs_vol,XYZ,0007,any";
    fs::write(place.path("given"), given).expect("written");
    let (said, ended) = place.run("arm @given\nlock 0ms XYZ\nprofile @given\nprofile @\n", Manner::Shown);
    assert!(said.contains("'@given' is there already and is left alone; type profile @given over"), "{said}");
    assert!(said.contains("(it is a folder)"), "{said}");
    assert_eq!((fs::read_to_string(place.path("given")).expect("there").as_str(), ended.not_done), (given, 2));
    let (said, ended) = place.run("arm @given\nlock 0ms XYZ\nprofile @given over\n", Manner::Shown);
    assert!(said.contains("saved 1 rule to @given"), "{said}");
    assert_eq!((fs::read_to_string(place.path("given")).expect("there").as_str(), ended.unsaved), ("ABCD,abs_vol,XYZ,7\n", 1));
}

#[test]
fn a_file_that_is_there_is_written_over_only_if_that_is_said() {
    let place = Place::new("over");
    let typed = "arm @profile\nlock 0ms XYZ\n";
    let (said, _) = place.run(&format!("{typed}save @day\n"), Manner::Shown);
    assert!(said.contains("saved 1 record to @day"), "{said}");
    let before = fs::read(place.path("day")).expect("saved");
    let (said, ended) = place.run(&format!("{typed}lock 1ms XYZ\nsave @day\n"), Manner::Shown);
    assert!(said.contains("'@day' is there already and is left alone; type save @day over"), "{said}");
    assert_eq!((fs::read(place.path("day")).expect("there"), ended.unsaved, ended.not_done), (before, 2, 1));
    let (said, ended) = place.run(&format!("{typed}lock 1ms XYZ\nsave @day over\n"), Manner::Shown);
    assert!(said.contains("saved 2 records to @day"), "{said}");
    assert_eq!((fs::read(place.path("day")).expect("there").len(), ended.unsaved), (32, 0));
    // nothing but the three files is left behind
    let mut names: Vec<_> = fs::read_dir(&place.0).expect("a folder").map(|entry| entry.expect("a file").file_name()).collect();
    names.sort();
    assert_eq!(names, ["day", "profile"]);
    // a folder is no file, and neither a profile nor another's page is a report of the desk's; its own are written over
    fs::write(place.path("other.html"), "<!DOCTYPE html>\n<html></html>\n").expect("written");
    let reports = "report @profile\nreport @other.html\nreport @page.html\nreport @page.html\nreport @day.csv\nreport @day.csv\nreport @day.json\nreport @day.json\n";
    let (said, _) = place.run(&format!("{typed}save @\nsave @ over\n{reports}"), Manner::Shown);
    assert_eq!(
        (said.matches("(it is a folder)").count(), said.matches(" is no report of the desk's").count(), said.matches("wrote ").count()),
        (2, 2, 6),
        "{said}"
    );
}

#[test]
fn every_record_keeps_its_bytes_and_its_place() {
    let place = Place::new("bytes");
    for seed in 0..60 {
        let mut dice = Dice::new(seed);
        fs::write(place.path("profile"), profile(&mut dice)).expect("written");
        // at least half of the records must hold an event, else the desk takes the file for no day
        let mut bytes: Vec<u8> = (0..12 + dice.below(30)).flat_map(|n| recorded(&mut dice, n * 50, 3).0).collect();
        for _ in 0..dice.below(6) {
            let length = bytes.len() as u64;
            if let Some(byte) = bytes.get_mut(dice.below(length) as usize) {
                *byte ^= 1 << dice.below(8);
            }
        }
        bytes.truncate(bytes.len().saturating_sub(dice.below(16) as usize));
        // as many bytes as old records have are taken for such
        while Form::New.fits(bytes.len() as u64).is_err() {
            bytes.pop();
        }
        fs::write(place.path("first"), &bytes).expect("written");
        let (said, ended) = place.run("arm @profile\nreplay @first\nsave @second over\n", Manner::Shown);
        assert_eq!(fs::read(place.path("second")).expect("saved"), bytes, "seed {seed}");
        assert_eq!((ended.unsaved, ended.not_done), (0, 0), "what was replayed is in its file already\n{said}");
        // typed after a record that came short: it is filled up, and still faulty in its place
        let (first, _) = place.run("arm @profile\nreplay @first\nlock 23:00 firm\nsave @third over\n", Manner::Shown);
        let (again, _) = place.run("arm @profile\nreplay @third\n", Manner::Shown);
        let numbers = |text: &str| -> Vec<String> {
            text.lines().filter(|line| !line.starts_with('>')).filter_map(|line| Some(line.rsplit_once("  [")?.1.to_string())).collect()
        };
        assert_eq!(numbers(&first), numbers(&again), "seed {seed}");
        let third = fs::read(place.path("third")).expect("saved");
        assert!(third.starts_with(&bytes) && third.len() == bytes.len().div_ceil(16) * 16 + 16);
    }
}

#[test]
fn typed_events_are_not_lost_without_a_question() {
    let place = Place::new("question");
    let typed = "arm @profile\nlock 0ms XYZ\n";
    let (said, ended) = place.run(&format!("{typed}quit\nstatus\nquit\nquit\nstatus\n"), Manner::Asked);
    assert_eq!(said.matches("1 event is not saved: type save FILE, or quit again to lose it").count(), 2, "{said}");
    assert!(said.contains("clock 0ms") && ended.unsaved == 1, "another line takes the question back: {said}");
    // the end of the input is a quit as well, and ends for good when it comes twice
    let (said, _) = place.run(typed, Manner::Asked);
    assert_eq!(said.matches("not saved").count(), 1, "{said}");
    let (said, _) = place.run(&format!("{typed}clear\nremaining\nclear\nclear\nremaining\n"), Manner::Asked);
    assert_eq!((said.matches("or clear again to lose it").count(), said.matches("cleared").count()), (2, 1), "{said}");
    let (said, ended) = place.run(&format!("{typed}save @kept\nlock 1ms XYZ\nlock 2ms XYZ\nquit\nsave @kept over\nquit\n"), Manner::Asked);
    assert!(said.contains("2 events are not saved") && ended.unsaved == 0, "{said}");
}

#[test]
fn a_script_that_saves_nothing_is_warned_on_standard_error() {
    let place = Place::new("warning");
    for (lines, warning) in [
        ("arm profile\nlock 0ms XYZ\n", "desk: 1 event was not saved\n"),
        ("arm profile\nlock 0ms XYZ\nlock 1ms XYZ\nquit\n", "desk: 2 events were not saved\n"),
        ("arm profile\nlock 0ms XYZ\nclear\narm profile\nlock 0ms XYZ\n", "desk: 2 events were not saved\n"),
        ("arm profile\nlock 0ms XYZ\nsave day over\nclear\n", ""),
        ("arm profile\nreplay day quiet\n", ""),
        ("arm profile\nstatus\n", ""),
    ] {
        let mut child = Command::new(env!("CARGO_BIN_EXE_desk"));
        let child = child.current_dir(&place.0).stdin(Stdio::piped()).stdout(Stdio::null()).stderr(Stdio::piped()).spawn();
        let mut child = child.expect("the desk runs");
        std::io::Write::write_all(&mut child.stdin.take().expect("a pipe"), lines.as_bytes()).expect("written");
        let output = child.wait_with_output().expect("ended");
        assert_eq!(String::from_utf8_lossy(&output.stderr), warning, "{lines}");
        assert!(output.status.success());
    }
    let day = fs::read(place.path("day")).expect("saved");
    assert_eq!(Event::from_record16(&day).expect("an event").to_record16().as_ref().map(|record| &record[..]), Ok(&day[..]));
}
