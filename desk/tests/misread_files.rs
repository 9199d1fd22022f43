//! No file is taken for what it is not: what it is, is told before an event of it is passed, and it is passed whole or not at all.
#[path = "common/spoken.rs"]
mod spoken;
use desk::files::in_words::HEAD;
use desk::library::form::Form;
use spoken::Place;
use std::fs;
use std::process::{Command, Stdio};

const EVENTS: &str = "offer 0ms XYZ call front 1.00 120\norder +1ms XYZ reset t\nrecord ff00\nlock now firm\n";

#[test]
fn a_day_in_words_is_recognised_however_it_was_kept() {
    let place = Place::new("kept");
    let whole = format!("{HEAD}{EVENTS}");
    let mut kept = Vec::new();
    for (number, text) in [
        whole.clone(),
        format!("\u{FEFF}{whole}"),
        whole.replace('\n', "\r\n"),
        format!("\u{FEFF}{}", whole.replace('\n', "\r\n")),
        EVENTS.to_string(),
        format!("\u{FEFF}{EVENTS}"),
        EVENTS.replace('\n', "\r\n"),
        format!("\n  \n# what was asked\n{}", EVENTS.trim_end()),
        EVENTS.replace("offer 0ms", "OFFER 0ms"),
    ]
    .iter()
    .enumerate()
    {
        fs::write(place.path("day"), text).expect("written");
        let (said, ended) = place.spoken(&format!("arm @profile\nreplay @day quiet\nsave @saved{number}\n"));
        assert!(said.contains("replayed 4 records: ") && ended.not_done == 0, "{text:?}: {said}");
        kept.push(fs::read(place.path(&format!("saved{number}"))).expect("saved"));
    }
    assert!(kept.iter().all(|bytes| *bytes == kept[0]), "each is the same day");
}

/// Files that are no day, and why.
fn no_days() -> Vec<(&'static str, Vec<u8>, &'static str)> {
    let wide = |text: &str| text.encode_utf16().flat_map(u16::to_le_bytes).collect::<Vec<u8>>();
    vec![
        ("empty", vec![], "it is empty"),
        ("other-profile", b"ABCD,abs_vol,XYZ,100\nABCD,abs_vol,,150,,T\n".to_vec(), "it is a profile, for which there is arm"),
        ("account.csv", b"of,accepted,rejected\r\nXYZ,0,1\r\n".to_vec(), "it is a table of commas and no day"),
        ("note", b"yesterday's day is in the other folder\n".to_vec(), "it is a text and its first line is no event"),
        ("script", b"arm profile\noffer 0ms XYZ call front 1.00 120\n".to_vec(), "it is a text and its first line is no event"),
        ("wide", [&[0xFF, 0xFE][..], &wide(HEAD)].concat(), "it is no day: of its "),
        ("bytes", (0..=255).cycle().take(4_096).collect(), "it is no day: of its 256 records only "),
        ("picture", [&b"\x89PNG\r\n\x1a\n\0\0\0\rIHDR"[..], &[0xFF; 160]].concat(), "it is no day: of its 11 records only 0 hold an event"),
        ("short", vec![0xFF; 7], "it is no day: of its 1 record only 0 hold an event"),
    ]
}

#[test]
fn another_file_is_recognised_before_an_event_of_it_is_passed() {
    let place = Place::new("others");
    for (name, bytes, why) in no_days() {
        fs::write(place.path(name), &bytes).expect("written");
        let (said, ended) = place.spoken(&format!("arm @profile\nreplay @{name}\nstatus\n"));
        assert!(said.contains(&format!("\n'@{name}' is left alone, since {why}")), "{said}");
        assert!(said.contains("clock 0ms, 0 events passed") && ended.not_done == 1, "{name}: {said}");
        let mut bench = desk::serve::Bench::default();
        bench.arm("profile", b"ABCD,abs_vol,XYZ,100000\n").expect("armed");
        let page = bench.replay(name, &bytes, Form::New).expect_err("no day");
        assert!(page.starts_with(&format!("{name} is left alone, since {why}")) && bench.place() == 0, "{page}");
        let file = |name: &str| place.path(name).to_string_lossy().into_owned();
        let report = desk::report::of_files(&file("profile"), (&file(name), Form::New), &file("page.html"), None).expect_err("no day");
        assert!(report.contains(&format!("is left alone, since {why}")) && !place.path("page.html").exists(), "{report}");
    }
}

#[test]
fn a_replay_passes_all_of_a_file_or_nothing() {
    let place = Place::new("all");
    for (bad, why) in [
        ("order 5ms SPY", "line 6: the profile has no root 'SPY'"),
        ("offer 5ms XYZ call front 7,00 5", "line 6: '7,00' is no premium"),
        ("status", "line 6: that is no event"),
        ("record 0g", "line 6: '0g' are not the bytes of a record"),
        (&"x".repeat(5_000), "line 6 is longer than any event"),
    ] {
        fs::write(place.path("day"), format!("{HEAD}{EVENTS}{bad}\norder 9ms XYZ\n")).expect("written");
        let (said, ended) = place.spoken("arm @profile\norder 0ms XYZ\nreplay @day\nstatus\nreport @day.json\n");
        assert!(said.contains(&format!("\n'@day' is left alone, since {why}")), "{said}");
        assert!(said.contains("clock 0ms, 1 event passed") && said.contains("firm ABCD: free") && ended.not_done == 1, "{said}");
        let figures = fs::read_to_string(place.path("day.json")).expect("figures");
        assert!(!figures.contains("/day\""), "a file that was left alone is no source of the day: {figures}");
    }
}

#[test]
fn undo_takes_back_the_last_line_or_replay() {
    let place = Place::new("undo");
    fs::write(place.path("day"), EVENTS).expect("written");
    let typed = "arm @profile\nundo\norder 5ms XYZ\nlock 6ms firm\norder 3ms XYZ\n";
    let (said, ended) = place.spoken(&format!("{typed}undo\nstatus\nundo\nstatus\nsave @one\nundo\nundo\n"));
    let answers = [
        "nothing was passed yet that could be taken back",
        "taken back: order 3ms XYZ; 2 events left, clock 6ms",
        "taken back: lock 6ms firm; 1 event left, clock 5ms",
        "taken back: order 5ms XYZ; 0 events left, clock 0ms",
        "nothing was passed yet that could be taken back",
    ];
    let taken: Vec<&str> = said.lines().filter(|line| line.contains("taken back")).collect();
    assert_eq!((taken, ended.not_done, ended.unsaved), (answers.to_vec(), 2, 0), "{said}");
    assert!(said.contains("firm ABCD: locked by hand") && said.contains("firm ABCD: free"), "{said}");
    assert_eq!(fs::read(place.path("one")).expect("saved").len(), 16);
    // a replay is taken back whole, and the day goes on as if it had not been
    let (said, ended) = place.spoken("arm @profile\norder 0ms XYZ\nreplay @day quiet\nundo\norder 0ms XYZ\nsave @two\nclear\nundo\n");
    assert!(said.contains("taken back: the replay of @day; 1 event left, clock 0ms"), "{said}");
    assert!(said.contains("the order on XYZ may pass  [2 0 0 0 0 0]") && ended.not_done == 1, "{said}");
    let two = fs::read(place.path("two")).expect("saved");
    assert_eq!((two.len(), &two[..16]), (32, &two[16..]));
}

#[test]
fn a_profile_that_cannot_be_opened_is_told_apart_from_an_empty_one() {
    let place = Place::new("apart");
    fs::write(place.path("empty"), "").expect("written");
    fs::write(place.path("records"), [0; 16]).expect("written");
    let cannot = "desk: 'missing' cannot be read (no such file or folder)";
    let empty = "desk: 'empty' is empty, so it has no rule";
    let calls: [(&[&str], &str, i32); 5] = [
        (&["check", "missing"], cannot, 2),
        (&["check", "empty"], empty, 1),
        (&["report", "missing", "records", "page.html"], cannot, 1),
        (&["report", "empty", "records", "page.html"], empty, 1),
        (&["serve", "missing"], cannot, 2),
    ];
    for (words, wanted, code) in calls {
        let output = Command::new(env!("CARGO_BIN_EXE_desk")).args(words).current_dir(place.path("")).stdin(Stdio::null()).output();
        let output = output.expect("the desk runs");
        let said = String::from_utf8_lossy(&output.stderr);
        assert!(said.starts_with(wanted) && output.status.code() == Some(code), "{words:?}: {said}");
    }
}
