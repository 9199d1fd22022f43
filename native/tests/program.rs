//! The real program, as the kit builds it, and the second program print the same bytes for the same profile and records.
//! `native/run test` builds both and names them: PROGRAM is the command that runs the proved one, SECOND the other.
//! PROGRAM ends with 1 where the first word is `refused`; the second program ends with 0 then too.

use std::fs;
use std::io::{BufRead, BufReader, Write};
use std::path::{Path, PathBuf};
use std::process::{Child, Command, Output, Stdio};
use std::time::Duration;

use native::profiles::clashing;
use native::program::seen::Seen;
use native::program::BYTES;
use second::gen::{profile, records16, valid_profile, Random};

/// A command that was started in a folder, all its files pipes.
fn started(command: &[String], folder: &Path) -> Child {
    Command::new(&command[0])
        .args(&command[1..])
        .current_dir(folder)
        .stdin(Stdio::piped())
        .stdout(Stdio::piped())
        .stderr(Stdio::piped())
        .spawn()
        .expect("the program starts")
}

/// What a command does in a folder, given an input.
fn ran(command: &[String], folder: &Path, input: &[u8]) -> Output {
    let mut child = started(command, folder);
    let mut stdin = child.stdin.take().expect("an input");
    let input = input.to_vec();
    // A program that is refused its profile reads no input.
    let writer = std::thread::spawn(move || drop(stdin.write_all(&input)));
    let output = child.wait_with_output().expect("the program ends");
    writer.join().expect("the input is written");
    output
}

fn named(name: &str) -> Vec<String> {
    std::env::var(name).expect("native/run test names the programs").split_whitespace().map(str::to_owned).collect()
}

/// A folder of its own with a file `profile`, or without one.
fn folder(seed: u64, text: Option<&[u8]>) -> PathBuf {
    let folder = std::env::temp_dir().join(format!("mbrumzheg-{}-{seed}", std::process::id()));
    fs::create_dir_all(&folder).expect("a folder");
    if let Some(text) = text {
        fs::write(folder.join("profile"), text).expect("a profile");
    }
    folder
}

fn print_alike(seed: u64, text: Option<&[u8]>, input: &[u8]) -> Vec<u8> {
    let folder = folder(seed, text);
    let proved = ran(&named("PROGRAM"), &folder, input);
    let second = ran(&named("SECOND"), &folder, input);
    let shown = |output: &Output| String::from_utf8_lossy(&output.stdout).into_owned();
    assert!(proved.stdout == second.stdout, "seed {seed}: {} and {}", shown(&proved), shown(&second));
    assert_eq!(proved.status.code(), Some(i32::from(proved.stdout.starts_with(b"refused "))), "seed {seed}");
    assert!(second.status.success(), "seed {seed}: the second program ended with {}", second.status);
    fs::remove_dir_all(folder).expect("the folder goes");
    proved.stdout
}

#[test]
fn days_of_records_print_alike() {
    let (mut armed, mut lines, mut seen) = (0, 0, Seen::default());
    for seed in 0..60 {
        let mut random = Random::new(seed);
        let text = match seed % 3 {
            0 => valid_profile(seed),
            1 => profile(seed),
            _ => clashing(&mut random),
        };
        let mut input = records16(seed, random.between(0, 9_000) as usize, &text);
        for _ in 0..random.below(20) {
            if let Some(place) = (!input.is_empty()).then(|| random.below(input.len() as u64) as usize) {
                input[place] ^= 1 << random.below(8);
            }
        }
        input.truncate(input.len() - random.below(BYTES as u64).min(input.len() as u64) as usize);
        let printed = print_alike(seed, Some(&text), &input);
        if printed.starts_with(b"armed ") {
            armed += 1;
            seen.look(&input, &printed);
        }
        lines += printed.iter().filter(|&&byte| byte == b'\n').count();
    }
    assert!((15..60).contains(&armed) && 50_000 < lines, "{armed} days were armed, {lines} lines printed");
    println!("{seen:?}");
    assert!(seen.is_enough(), "something never came up: {seen:?}");
}

#[test]
fn a_missing_an_empty_and_a_too_long_profile_are_refused_alike() {
    let long = b"A,abs_vol,Q,5\n".repeat(65_537 / 14 + 1);
    for (seed, text) in [(1000, None), (1001, Some(&b""[..])), (1002, Some(&long[..65_537]))] {
        assert_eq!(print_alike(seed, text, b""), b"refused 5 0\n");
    }
}

/// The bytes of an event's record: kind, time in microseconds, root, unit, premium, contracts, reset, level, identity and reports.
fn bytes(numbers: [u64; 10]) -> [u8; BYTES] {
    let mut room = [0; BYTES];
    assert_eq!(native::write_record16(numbers, &mut room)[0], 0, "the event is valid: {numbers:?}");
    room
}

/// An offer of one contract at $1 to unit 0 of root 0, some microseconds after a millisecond.
fn offer(time: u64) -> [u8; BYTES] {
    bytes([1, 1_000 * time + 7 * time % 1_000, 0, 0, 10_000, 1, 0, 0, 0, 0])
}

#[test]
fn each_refusal_that_a_record_can_meet_is_printed() {
    // 512 fills within the window fill the log; the next finds it full, a sending too, and an order still passes
    let mut input: Vec<u8> = (0..513).flat_map(offer).collect();
    input.extend(bytes([3, 600_000, 0, 0, 1, 1, 0, 0, 9, 1]));
    input.extend(bytes([0, 600_000, 0, 0, 0, 0, 0, 0, 0, 0]));
    // an earlier time, an unknown root, an unknown root in a lockout, a faulty record, and a last one that is cut off
    input.extend(offer(599));
    input.extend(bytes([0, 600_000, 7, 0, 0, 0, 0, 0, 0, 0]));
    input.extend(bytes([2, 600_000, 63, 0, 0, 0, 0, 0, 0, 0]));
    input.extend([0xFF; BYTES]);
    input.extend(&offer(601)[..BYTES - 1]);
    let mut lines: Vec<String> = vec!["armed A 1 1".into()];
    lines.extend((1..=512).map(|place| format!("{place} 0 0 1 0 0")));
    let refusals = [15, 15, 0, 12, 13, 13, 16, 16];
    lines.extend(refusals.iter().zip(513..).map(|(refusal, place)| format!("{place} {refusal} 0 0 0 0")));
    let printed = print_alike(2000, Some(b"A,rate_vol,Q,1000000000,86400000"), &input);
    assert_eq!(String::from_utf8_lossy(&printed), lines.join("\n") + "\n");
}

#[test]
fn orders_sent_away_are_printed_in_the_same_six_fields() {
    let send = |identity| bytes([3, 1_999, 0, 3, 70_000, 20, 0, 0, identity, 1]);
    let report = |identity, contracts| bytes([4, 1_001, 0, 0, 0, contracts, 0, 0, identity, 0]);
    let close = |identity| bytes([5, 1_001, 0, 0, 0, 0, 0, 0, identity, 0]);
    let order = |time, reset| bytes([0, time, 0, 0, 0, 0, reset, 0, 0, 0]);
    // each event and what is printed after its place; the time goes back within its millisecond, which is not refused
    let mut steps: Vec<([u8; BYTES], &str)> = (0..64).map(|identity| (send(identity), "0 0 0 0 0")).collect();
    steps.extend([
        (send(64), "17 0 0 0 0"),
        (report(0, 9), "0 0 9 0 0"),
        (report(0, 1), "19 0 0 0 0"),
        (report(1, 21), "19 0 0 0 0"),
        (report(1, 1), "0 0 1 1 0"),
        (report(64, 1), "18 0 0 0 0"),
        (close(0), "0 0 0 0 0"),
        (close(0), "18 0 0 0 0"),
        (send(1), "18 0 0 0 0"),
        (send(0), "0 2 0 0 0"),
        (order(1_500, 0), "0 2 0 0 0"),
        (order(1_000, 4), "0 0 0 0 0"),
        (order(1_000, 6), "0 0 0 0 0"),
        (order(999, 0), "12 0 0 0 0"),
        (order(2_000, 5), "0 0 0 0 0"),
        (bytes([2, 86_399_999_999, 0, 0, 0, 0, 0, 1, 0, 0]), "0 0 0 0 0"),
        (order(86_399_999_000, 4), "0 1 0 0 0"),
    ]);
    let input: Vec<u8> = steps.iter().flat_map(|(record, _)| *record).collect();
    let lines: String = steps.iter().zip(1..).map(|((_, words), place)| format!("{place} {words}\n")).collect();
    let printed = print_alike(2001, Some(b"A,abs_vol,Q,10"), &input);
    assert_eq!(String::from_utf8_lossy(&printed), format!("armed A 1 1\n{lines}"));
}

#[test]
fn a_closed_output_ends_the_program_quietly() {
    let folder = folder(3000, Some(b"A,abs_vol,Q,1000000"));
    let mut child = started(&named("PROGRAM"), &folder);
    drop(child.stdout.take());
    let mut stdin = child.stdin.take().expect("an input");
    // Far more than any pipe holds: the program has to end by itself for the writing to end.
    let records: Vec<u8> = (0..200_000).flat_map(offer).collect();
    let written = stdin.write_all(&records);
    drop(stdin);
    let output = child.wait_with_output().expect("the program ends");
    assert!(written.is_err() && output.stderr.is_empty(), "{written:?}, {}", String::from_utf8_lossy(&output.stderr));
    fs::remove_dir_all(folder).expect("the folder goes");
}

#[test]
fn what_has_come_is_answered_before_more_is_awaited() {
    let folder = folder(4000, Some(b"A,abs_vol,Q,1000000"));
    let mut child = started(&named("PROGRAM"), &folder);
    let mut stdin = child.stdin.take().expect("an input");
    let output = BufReader::new(child.stdout.take().expect("an output"));
    let (sender, lines) = std::sync::mpsc::channel();
    std::thread::spawn(move || output.lines().for_each(|line| drop(sender.send(line.expect("text")))));
    let line = || lines.recv_timeout(Duration::from_secs(60)).expect("a line comes before anything more is sent");
    let mut send = |bytes: &[u8]| stdin.write_all(bytes).and_then(|()| stdin.flush()).expect("the program reads");
    assert_eq!(line(), "armed A 1 1");
    // each line is awaited before anything more is sent: whole records, then one and a half, the rest of it, and a part in three pieces
    send(&offer(1));
    assert_eq!(line(), "1 0 0 1 0 0");
    send(&[offer(2), offer(3)].concat());
    assert_eq!([line(), line()], ["2 0 0 1 0 0", "3 0 0 1 0 0"]);
    let (whole, part) = (offer(4), offer(5));
    send(&[&whole[..], &part[..5]].concat());
    assert_eq!(line(), "4 0 0 1 0 0");
    send(&part[5..]);
    assert_eq!(line(), "5 0 0 1 0 0");
    for piece in offer(6).chunks(4) {
        send(piece);
    }
    assert_eq!(line(), "6 0 0 1 0 0");
    send(&offer(7)[..7]);
    drop(stdin);
    assert_eq!(line(), "7 16 0 0 0 0");
    assert!(child.wait().expect("the program ends").success());
    fs::remove_dir_all(folder).expect("the folder goes");
}
