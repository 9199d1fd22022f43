//! The page, the desk's replay and the program `gateway` agree on random files of records, faulty and short ones among them: the same places, refusals,
//! verdicts, grants and trips.
mod common;
#[path = "common/skipped.rs"]
mod skipped;
use common::{profile, recorded, Dice};
use std::fs;
use std::path::{Path, PathBuf};
use std::process::{Command, Stdio};

fn repository() -> PathBuf {
    Path::new(env!("CARGO_MANIFEST_DIR")).join("..")
}

/// What a command prints in a folder, its standard input from a file.
fn printed(command: &mut Command, place: &Path, input: Option<&Path>) -> String {
    let from = input.map_or_else(Stdio::null, |file| Stdio::from(fs::File::open(file).expect("an input")));
    let output = command.current_dir(place).stdin(from).output().expect("it starts");
    assert!(output.status.success(), "{command:?}: {}", String::from_utf8_lossy(&output.stderr));
    String::from_utf8(output.stdout).expect("text")
}

fn desk() -> Command {
    Command::new(env!("CARGO_BIN_EXE_desk"))
}

/// A file of records: events, some of their bits turned over, and a last one cut off.
fn records(dice: &mut Dice) -> Vec<u8> {
    let mut clock = 0;
    let mut bytes = Vec::new();
    // at least half of the records must hold an event, else the desk takes the file for no day
    for _ in 0..40 + dice.below(400) {
        let (record, next) = recorded(dice, clock, 3);
        clock = clock.max(next.time().ms());
        bytes.extend(record);
    }
    for _ in 0..dice.below(20) {
        let at = dice.below(bytes.len() as u64) as usize;
        bytes[at] ^= 1 << dice.below(8);
    }
    bytes.truncate(bytes.len() - dice.below(16) as usize);
    // a length that only the old form has is left alone by the desk, with advice
    if bytes.len() % 16 != 0 && bytes.len() % 12 == 0 {
        bytes.pop();
    }
    bytes
}

/// The numbers of a line: place, refusal, verdict, grant, root trip, firm trip.
fn numbers(line: &str) -> Vec<u64> {
    line.split(' ').map(|number| number.parse().expect("a number")).collect()
}

/// The number after a name in JSON.
fn figure(json: &str, name: &str) -> u64 {
    let (_, rest) = json.split_once(&format!("\"{name}\":")).expect("the figure is there");
    let digits: String = rest.chars().take_while(char::is_ascii_digit).collect();
    digits.parse().expect("a number")
}

/// Checks a page's tables and figures against the program's lines; answers how many rows it has.
fn check_page(page: &str, json: &str, lines: &[&str]) -> usize {
    let rows: Vec<&str> = page.split("<td class=\"numbers\">").skip(1).map(|rest| rest.split('<').next().expect("numbers")).collect();
    for row in &rows {
        assert_eq!(Some(row), lines.get(numbers(row)[0] as usize - 1), "a row of the page is the program's line of that place");
    }
    let all: Vec<Vec<u64>> = lines.iter().map(|line| numbers(line)).collect();
    let count = |wanted: fn(&[u64]) -> bool| all.iter().filter(|numbers| wanted(numbers)).count() as u64;
    assert_eq!(figure(json, "faulty_records"), count(|n| n[1] == 16));
    assert_eq!(figure(json, "refused"), count(|n| n[1] != 0 && n[1] != 16));
    assert_eq!(figure(json, "rejected"), count(|n| n[2] != 0));
    assert_eq!(figure(json, "trips"), all.iter().map(|n| n[4] + n[5]).sum::<u64>());
    // a report's line has its contracts as grant; the page tells them apart
    assert_eq!(figure(json, "contracts_granted") + figure(json, "contracts_come_back"), all.iter().map(|n| n[3]).sum::<u64>());
    let (_, counts) = json.split_once("\"counts\":").expect("counts");
    assert_eq!(figure(counts, "records"), lines.len() as u64);
    rows.len()
}

#[test]
fn page_replay_and_program_agree() {
    let program = repository().join("tools/program");
    if !repository().join("crates/gateway/out/gateway").exists() {
        skipped::skipped("the desk beside the program gateway, which is not built");
        return;
    }
    let place = std::env::temp_dir().join(format!("desk-places-{}", std::process::id()));
    fs::create_dir_all(&place).expect("a folder");
    let (mut rows, mut faulty, mut trips) = (0, 0, 0);
    for seed in 0..40 {
        let mut dice = Dice::new(seed);
        fs::write(place.join("profile"), profile(&mut dice)).expect("written");
        let file = place.join("records");
        fs::write(&file, records(&mut dice)).expect("written");
        let answers = printed(Command::new(&program).arg("gateway"), &place, Some(&file));
        let lines: Vec<&str> = answers.lines().skip(1).collect();
        fs::write(place.join("script"), "arm profile\nreplay records\n").expect("written");
        let said = printed(desk().arg("script"), &place, None);
        let replayed: Vec<&str> = said
            .lines()
            .skip_while(|line| !line.starts_with("> replay"))
            .filter_map(|line| line.rsplit_once("  [").map(|(_, numbers)| numbers.trim_end_matches(']')))
            .collect();
        assert_eq!(replayed, lines, "seed {seed}");
        for report in ["page.html", "day.json"] {
            printed(desk().args(["report", "profile", "records", report]), &place, None);
        }
        let [page, json] = ["page.html", "day.json"].map(|name| fs::read_to_string(place.join(name)).expect("a report"));
        rows += check_page(&page, &json, &lines);
        faulty += figure(&json, "faulty_records");
        trips += figure(&json, "trips");
    }
    fs::remove_dir_all(place).expect("removed");
    assert!(rows > 2_000 && faulty > 100 && trips > 100, "{rows} rows, {faulty} faulty records, {trips} trips");
}
