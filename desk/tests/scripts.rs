//! Runs every script in `tests/scripts` through the program and compares what it prints with the file of expected lines.
use std::fs;
use std::path::{Path, PathBuf};
use std::process::{Command, Output, Stdio};

fn folder() -> PathBuf {
    Path::new(env!("CARGO_MANIFEST_DIR")).join("tests/scripts")
}

/// A folder of its own with the profiles, in which a script may write.
fn workplace(name: &str) -> PathBuf {
    let place = std::env::temp_dir().join(format!("desk-{name}-{}", std::process::id()));
    fs::create_dir_all(&place).expect("a folder");
    for entry in fs::read_dir(folder()).expect("scripts") {
        let path = entry.expect("a file").path();
        fs::copy(&path, place.join(path.file_name().expect("a name"))).expect("copied");
    }
    place
}

fn desk(place: &Path) -> Command {
    let mut command = Command::new(env!("CARGO_BIN_EXE_desk"));
    command.current_dir(place);
    command
}

fn text(bytes: &[u8]) -> String {
    String::from_utf8(bytes.to_vec()).expect("the desk writes text")
}

/// Runs a script and compares; answers what the program did.
fn compare(name: &str) -> Output {
    let place = workplace(name);
    let output = desk(&place).arg(format!("{name}.desk")).output().expect("the desk runs");
    let expected = fs::read_to_string(folder().join(format!("{name}.expected"))).expect("expected lines");
    let printed = text(&output.stdout);
    for (number, (line, wanted)) in printed.lines().zip(expected.lines()).enumerate() {
        assert_eq!(line, wanted, "{name}: line {}", number + 1);
    }
    assert_eq!(printed, expected, "{name}");
    fs::remove_dir_all(place).expect("removed");
    output
}

#[test]
fn scripts_print_what_is_expected() {
    for name in ["example", "cuts", "units", "trips", "locks", "active", "help", "unlock", "away"] {
        assert!(compare(name).status.success(), "{name}: every line was carried out");
    }
    for name in ["firm", "errors", "replay"] {
        assert!(!compare(name).status.success(), "{name}: some lines were not carried out");
    }
}

#[test]
fn every_script_is_run() {
    let scripts = fs::read_dir(folder()).expect("scripts").filter(|entry| {
        let path = entry.as_ref().expect("a file").path();
        path.extension().is_some_and(|extension| extension == "desk")
    });
    assert_eq!(scripts.count(), 12);
}

#[test]
fn a_pipe_gives_what_a_script_gives() {
    let place = workplace("pipe");
    let script = fs::File::open(place.join("example.desk")).expect("a script");
    let output = desk(&place).stdin(Stdio::from(script)).output().expect("the desk runs");
    assert_eq!(text(&output.stdout), fs::read_to_string(folder().join("example.expected")).expect("expected lines"));
    fs::remove_dir_all(place).expect("removed");
}

#[test]
fn saved_records_are_the_scope_papers() {
    let place = workplace("saved");
    desk(&place).arg("example.desk").output().expect("the desk runs");
    let bytes = fs::read(place.join("example.records")).expect("records");
    assert_eq!(bytes.len(), 48);
    assert_eq!(mbrumzheg::narrow(&bytes[16..32]), Ok([0x40, 0, 0, 0x50, 0, 0x01, 0x11, 0x70, 0, 0x0C, 0x80, 0]));
    fs::remove_dir_all(place).expect("removed");
}

#[test]
fn saved_profiles_are_what_the_unit_runs() {
    let place = workplace("written");
    desk(&place).arg("active.desk").output().expect("the desk runs");
    let written = fs::read_to_string(place.join("written")).expect("a profile");
    assert_eq!(written, "ABCD,rate_vol,XYZ,500,100\nABCD,abs_count,QQQ,10,,,P,F\nABCD,abs_ntnl,,100000,,T\n");
    fs::remove_dir_all(place).expect("removed");
}

#[test]
fn a_reader_that_goes_away_ends_the_desk_quietly() {
    let place = workplace("away");
    let mut child = desk(&place).stdin(Stdio::piped()).stdout(Stdio::piped()).stderr(Stdio::piped()).spawn().expect("the desk runs");
    drop(child.stdout.take());
    drop(child.stdin.take().map(|mut input| std::io::Write::write_all(&mut input, b"help\nhelp\n")));
    let output = child.wait_with_output().expect("ended");
    assert_eq!(text(&output.stderr), "");
    fs::remove_dir_all(place).expect("removed");
}

/// The dialogues in a paper: for each the profile, and what was spoken.
fn dialogues(paper: &str) -> Vec<(String, String)> {
    let paper = fs::read_to_string(Path::new(env!("CARGO_MANIFEST_DIR")).join("..").join(paper)).expect("a paper");
    let blocks = paper.split("```\n$ cat profile\n").skip(1).map(|block| block.split_once("```\n").expect("a dialogue ends").0);
    blocks
        .map(|block| block.split_once("$ desk\n").expect("a call of the desk"))
        .map(|(profile, spoken)| (profile.into(), spoken.into()))
        .collect()
}

#[test]
fn the_dialogues_in_the_papers_are_true() {
    for paper in ["README.md", "docs/DESK.md", "docs/CALLS.md"] {
        let shown = dialogues(paper);
        assert!(!shown.is_empty(), "{paper} has a dialogue");
        for (profile, spoken) in shown {
            let place = workplace("dialogue");
            fs::write(place.join("profile"), profile).expect("written");
            let commands: String = spoken.lines().filter_map(|line| line.strip_prefix("> ")).map(|line| format!("{line}\n")).collect();
            fs::write(place.join("dialogue"), commands).expect("written");
            let output = desk(&place).arg("dialogue").output().expect("the desk runs");
            assert_eq!(text(&output.stdout), spoken, "{paper}");
            fs::remove_dir_all(place).expect("removed");
        }
    }
}

fn ended_with(place: &Path, words: &[&str], input: &str) -> (Option<i32>, String, String) {
    let mut child =
        desk(place).args(words).stdin(Stdio::piped()).stdout(Stdio::piped()).stderr(Stdio::piped()).spawn().expect("the desk runs");
    // a desk that ends without reading its input has closed the pipe, and that is no fault
    let _ = child.stdin.take().map(|mut pipe| std::io::Write::write_all(&mut pipe, input.as_bytes()));
    let output = child.wait_with_output().expect("ended");
    (output.status.code(), text(&output.stdout), text(&output.stderr))
}

#[test]
fn calls_end_with_0_1_or_2() {
    let place = workplace("calls");
    let calls: [(&[&str], &str, i32); 19] = [
        (&["report", "-", "-", "page.html"], "", 2),
        (&["--version"], "", 0),
        (&["--help"], "", 0),
        (&["help", "offer"], "", 0),
        (&["help", "nothing"], "", 2),
        (&["check", "profile"], "", 0),
        (&["check", "faulty-profile"], "", 1),
        (&["check", "no-such-file"], "", 2),
        (&["check", "-"], "ABCD,abs_vol,XYZ,5\n", 0),
        (&["check", "-"], "ABCD,abs_vol,XYZ,0\n", 1),
        (&["check"], "", 2),
        (&["check", "profile", "profile"], "", 2),
        (&["-"], "arm profile\n", 0),
        (&["-"], "arm faulty-profile\n", 1),
        (&[], "arm faulty-profile\nstatus\n", 1),
        (&["no-such-script"], "", 2),
        (&["--no-such-option"], "", 2),
        (&["report", "profile"], "", 2),
        (&["example.desk", "more"], "", 2),
    ];
    for (words, input, wanted) in calls {
        let (code, out, error) = ended_with(&place, words, input);
        assert_eq!(code, Some(wanted), "desk {words:?}: {out}{error}");
        assert_eq!(wanted == 2, !error.is_empty(), "desk {words:?}: {error}");
        assert!(wanted != 2 || out.is_empty(), "desk {words:?}: {out}");
        assert!(!out.contains('\x1b'), "no colour where there is no terminal");
    }
    fs::remove_dir_all(place).expect("removed");
}

#[test]
fn the_page_of_recorded_events_can_be_had_in_one_call() {
    let place = workplace("page");
    desk(&place).arg("example.desk").output().expect("the desk runs");
    let output = desk(&place).args(["report", "example-profile", "example.records", "page.html"]).output().expect("the desk runs");
    assert!(output.status.success());
    assert!(fs::read_to_string(place.join("page.html")).expect("a page").contains("<h1>Risk day of firm ABCD</h1>"));
    // the same records from the standard input make the same figures
    for (profile, records, input) in [("example-profile", "-", "example.records"), ("-", "example.records", "example-profile")] {
        let input = fs::File::open(place.join(input)).expect("a file");
        let output =
            desk(&place).args(["report", profile, records, "piped.csv"]).stdin(Stdio::from(input)).output().expect("the desk runs");
        assert!(output.status.success(), "{}", text(&output.stderr));
        let figures = fs::read_to_string(place.join("piped.csv")).expect("figures");
        desk(&place).args(["report", "example-profile", "example.records", "named.csv"]).output().expect("the desk runs");
        let named = fs::read_to_string(place.join("named.csv")).expect("figures");
        assert_eq!(figures.replace("standard input", if records == "-" { "example.records" } else { "example-profile" }), named);
    }
    let output = desk(&place).args(["report", "example-profile"]).output().expect("the desk runs");
    assert!(!output.status.success() && text(&output.stderr).contains("usage: desk"));
    fs::remove_dir_all(place).expect("removed");
}

#[test]
fn the_version_is_the_repositorys() {
    let place = workplace("version");
    let version = fs::read_to_string(Path::new(env!("CARGO_MANIFEST_DIR")).join("../VERSION")).expect("a version");
    let output = desk(&place).arg("--version").output().expect("the desk runs");
    assert_eq!(text(&output.stdout), format!("desk {version}"));
    fs::remove_dir_all(place).expect("removed");
}
