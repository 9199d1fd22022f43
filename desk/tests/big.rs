//! Days of any size: the desk's memory does not grow with the day, its page stays small, and a stretch of a long day is the stretch alone.
#[allow(dead_code)]
#[path = "../examples/big_day.rs"]
mod big_day;
#[path = "common/terminal.rs"]
mod terminal;
use std::fs;
use std::path::{Path, PathBuf};
use std::process::{Command, Stdio};
use std::time::Duration;

/// A folder with a profile and a day that the example `big_day` draws.
fn drawn(name: &str, records: u64, rules: u64, tight: u64) -> PathBuf {
    let place = std::env::temp_dir().join(format!("desk-big-{name}-{}", std::process::id()));
    fs::create_dir_all(&place).expect("a folder");
    big_day::write(7, records, (rules, tight), &place).expect("a day");
    place
}

/// Reports a day and answers what was said, and the most memory that the desk had, in kilobytes, where the system tells it.
fn report(place: &Path, words: &[&str]) -> (String, Option<u64>) {
    let mut child = Command::new(env!("CARGO_BIN_EXE_desk"))
        .args(["report", "profile", "records"])
        .args(words)
        .current_dir(place)
        .stdout(Stdio::piped())
        .spawn()
        .expect("the desk runs");
    let status = format!("/proc/{}/status", child.id());
    let mut most = None;
    while child.try_wait().expect("waited").is_none() {
        let text = fs::read_to_string(&status).unwrap_or_default();
        let peak = text.lines().find_map(|line| line.strip_prefix("VmHWM:")).and_then(|rest| rest.trim().split(' ').next()?.parse().ok());
        most = most.max(peak);
        std::thread::sleep(Duration::from_millis(5));
    }
    let output = child.wait_with_output().expect("ended");
    assert!(output.status.success());
    (String::from_utf8(output.stdout).expect("text"), most)
}

#[test]
fn memory_does_not_grow_with_the_day() {
    // both have a fill in every step of every picture, and more than that is not kept
    let (short, long) = (drawn("short", 20_000, 8, 1), drawn("long", 200_000, 8, 1));
    let (_, little) = report(&short, &["page.html"]);
    let (said, much) = report(&long, &["page.html"]);
    assert!(said.starts_with("wrote a page on 200,000 records to page.html"), "{said}");
    if let (Some(little), Some(much)) = (little, much) {
        assert!(much < little + little / 4 + 4_096, "{little} kilobytes for a tenth of the day, {much} for all of it");
    }
    for place in [short, long] {
        fs::remove_dir_all(place).expect("removed");
    }
}

#[test]
fn a_page_of_256_rules_is_below_3_million_bytes() {
    // rules that trip hardly ever, and rules that trip all day
    for tight in [1, 100] {
        let place = drawn("rules", 60_000, 256, tight);
        report(&place, &["page.html"]);
        let page = fs::read_to_string(place.join("page.html")).expect("a page");
        assert_eq!(page.matches("<section class=\"rule\"").count(), 256, "every rule is drawn");
        assert_eq!(page.matches("<div class=\"count\"").count(), 1_024, "on every unit");
        assert!(page.len() < 3_000_000, "{} bytes", page.len());
        assert_eq!(page.contains("use href=\"#trip\""), tight > 1, "trips are marked");
        fs::remove_dir_all(place).expect("removed");
    }
}

#[test]
fn a_stretch_of_a_long_day_is_the_stretch_alone() {
    let place = drawn("stretch", 40_000, 16, 1);
    report(&place, &["whole.json"]);
    report(&place, &["part.json", "from", "10:00", "to", "10:01"]);
    let [whole, part] = ["whole.json", "part.json"].map(|name| fs::read_to_string(place.join(name)).expect("figures"));
    assert!(part.contains("\"stretch\":{\"from_ms\":36000000,\"to_ms\":36060000}") && whole.contains("\"stretch\":null"));
    let line = |text: &str, name: &str| text.lines().find(|line| line.starts_with(&format!("\"{name}\":"))).map(str::to_string);
    assert_eq!(line(&whole, "counts"), line(&part, "counts"), "counts are the whole day's");
    let times: Vec<u64> = part.split("\"most_used_at_ms\":").skip(1).filter_map(|rest| rest.split(',').next()?.parse().ok()).collect();
    assert!(times.len() > 10 && times.iter().all(|ms| (36_000_000..=36_060_000).contains(ms)), "{times:?}");
    fs::remove_dir_all(place).expect("removed");
}

#[test]
fn a_day_that_memory_does_not_keep_is_saved_and_reported_as_it_was_read() {
    let place = drawn("kept", 120_000, 8, 1);
    fs::write(place.join("script"), "arm profile\nreplay records quiet\nsave copy\nreport desk.json\n").expect("written");
    let output = Command::new(env!("CARGO_BIN_EXE_desk")).arg("script").current_dir(&place).output().expect("the desk runs");
    assert!(output.status.success() && output.stderr.is_empty(), "{}", String::from_utf8_lossy(&output.stderr));
    assert!(String::from_utf8_lossy(&output.stdout).contains("saved 120,000 records to copy"));
    let [records, copy] = ["records", "copy"].map(|name| fs::read(place.join(name)).expect("records"));
    assert!(records == copy, "byte for byte");
    report(&place, &["files.json"]);
    let [at_the_desk, of_files] = ["desk.json", "files.json"].map(|name| fs::read_to_string(place.join(name)).expect("figures"));
    assert_eq!(at_the_desk, of_files, "the same figures, files and sums either way");
    fs::remove_dir_all(place).expect("removed");
}

#[test]
fn a_terminal_is_told_how_far_it_is() {
    let place = drawn("told", 200_000, 24, 1);
    let program = format!("{} report profile records page.html", env!("CARGO_BIN_EXE_desk"));
    let said = terminal::said(&program, &place, &[], &[("wrote a page on 200,000 records", "")]);
    // elsewhere nothing is said of it
    let output = Command::new(env!("CARGO_BIN_EXE_desk")).args(["report", "profile", "records", "page.html"]).current_dir(&place).output();
    assert!(output.expect("the desk runs").stderr.is_empty());
    if let Some(said) = said {
        assert!(said.contains(" of 200,000 records") && said.contains("\r\x1b[K"), "{said:?}");
    }
    fs::remove_dir_all(place).expect("removed");
}
