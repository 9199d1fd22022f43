//! The evening table of a day: as the proved program prints it, over the library's calls, and as the second program prints it from the same files.
//! `native/run test` builds both programs and names them: EVENING is the command that runs the proved one, SECOND_EVENING the other.

use std::fs;
use std::io::Write;
use std::path::{Path, PathBuf};
use std::process::{Child, Command, Output, Stdio};

use native::evening::table;
use native::profiles::clashing;
use second::gen::{profile, records16, valid_profile, Random};

/// A folder of its own with a file `profile`.
fn folder(seed: u64, text: &[u8]) -> PathBuf {
    let folder = std::env::temp_dir().join(format!("mbrumzheg-evening-{}-{seed}", std::process::id()));
    fs::create_dir_all(&folder).expect("a folder");
    fs::write(folder.join("profile"), text).expect("a profile");
    folder
}

/// A program that was started in a folder, all its files pipes.
fn started(name: &str, folder: &Path) -> Child {
    let command = std::env::var(name).expect("native/run test names the programs");
    let mut words = command.split_whitespace();
    Command::new(words.next().expect("a program"))
        .args(words)
        .current_dir(folder)
        .stdin(Stdio::piped())
        .stdout(Stdio::piped())
        .stderr(Stdio::piped())
        .spawn()
        .expect("the program starts")
}

/// What a program does, given its input.
fn given(mut child: Child, records: &[u8]) -> Output {
    let mut input = child.stdin.take().expect("an input");
    let records = records.to_vec();
    // A program that is refused its profile reads no input.
    let writer = std::thread::spawn(move || drop(input.write_all(&records)));
    let output = child.wait_with_output().expect("the program ends");
    writer.join().expect("the input is written");
    assert!(output.stderr.is_empty(), "{}", String::from_utf8_lossy(&output.stderr));
    output
}

/// The table of a profile and records, which both programs print and the library's calls make up.
fn printed(seed: u64, text: &[u8], records: &[u8]) -> String {
    let folder = folder(seed, text);
    let own = table(text, records);
    for name in ["EVENING", "SECOND_EVENING"] {
        let output = given(started(name, &folder), records);
        assert_eq!(own, String::from_utf8(output.stdout).expect("text"), "{name}, seed {seed}");
    }
    fs::remove_dir_all(folder).expect("the folder goes");
    own
}

/// The bytes of an offer on a root's unit 0, at a microsecond.
fn offer(time: u64, root: u64, premium: u64, contracts: u64) -> [u8; 16] {
    let mut room = [0; 16];
    assert_eq!(native::write_record16([1, time, root, 0, premium, contracts, 0, 0, 0, 0], &mut room)[0], 0);
    room
}

#[test]
fn evening_tables_are_alike() {
    let (mut armed, mut sums) = (0, [0; 8]);
    for seed in 0..60 {
        let mut random = Random::new(seed);
        let text = match seed % 3 {
            0 | 1 => valid_profile(seed),
            _ if random.once_in(2) => profile(seed),
            _ => clashing(&mut random),
        };
        let mut records = records16(seed, random.between(0, 5_000) as usize, &text);
        records.truncate(records.len() - random.below(16).min(records.len() as u64) as usize);
        let own = printed(seed, &text, &records);
        if own.starts_with("refused ") {
            continue;
        }
        armed += 1;
        let firm = own.lines().last().expect("the firm's line");
        for (sum, figure) in sums.iter_mut().zip(firm.split(' ').skip(1)) {
            *sum += figure.parse::<u64>().expect("a figure");
        }
    }
    println!("{armed} days, {sums:?}");
    assert!((30..60).contains(&armed) && sums.iter().all(|sum| *sum > 0), "{armed} days, {sums:?}");
}

#[test]
fn the_notional_of_the_dearest_fills_passes_the_most() {
    // 10,000 fills of 10^14 reach 10^18; one more is not applied, so that the total of contracts stays too
    let text = b"A,abs_count,X,1000000\nA,abs_vol,,100,,T\n";
    let free = b"A,abs_count,X,1000000\n";
    let mut records: Vec<u8> = (0..10_001).flat_map(|n| offer(n, 0, 100_000_000, 1_000_000)).collect();
    records.extend(offer(20_000, 0, 100_000_000, 1));
    let own = printed(1_000, free, &records);
    assert_eq!(own, "X 0 0 10000 10000000000 1000000000000000000 0 0 0\nA 0 0 10000 10000000000 1000000000000000000 0 0 0\n");
    let cut = printed(1_001, text, &records);
    assert_eq!(cut, "X 0 0 1 100 10000000000 1 0 0\nA 0 0 1 100 10000000000 1 1 0\n");
}

/// A profile of 64 roots, the most that there are.
fn most_roots() -> Vec<u8> {
    (0..64).map(|root| format!("ABCD,abs_vol,R{root},1000\n")).collect::<String>().into_bytes()
}

#[test]
fn sixty_four_roots_have_65_lines() {
    // more records than the program reads at a time, and a last one that is cut off
    let mut records: Vec<u8> = (0..6_400).flat_map(|n| offer(n, n % 64, 70_000, 1 + n % 64)).collect();
    records.truncate(records.len() - 1);
    let own = printed(1_002, &most_roots(), &records);
    let lines: Vec<&str> = own.lines().collect();
    assert_eq!(lines.len(), 65);
    assert_eq!(lines[0], "R0 0 0 100 100 7000000 0 0 0");
    assert!(lines[63].starts_with("R63 0 0 ") && lines[64].starts_with("ABCD 0 0 "), "{own}");
}

#[test]
fn firm_rules_alone_have_the_firms_line_alone() {
    assert_eq!(printed(1_003, b"ABCD,abs_vol,,10,,T", &offer(0, 0, 70_000, 1)), "ABCD 0 0 0 0 0 0 0 0\n");
}

#[test]
fn a_reader_that_goes_away_ends_the_program_quietly() {
    let folder = folder(1_004, &most_roots());
    let mut child = started("EVENING", &folder);
    drop(child.stdout.take());
    given(child, &offer(0, 0, 70_000, 1));
    fs::remove_dir_all(folder).expect("the folder goes");
}
