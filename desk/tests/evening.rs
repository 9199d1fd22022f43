//! The day's account at the desk: in words, as files, on both pages; and that it is what the second program's evening table has, and the proved program's
//! where they were built.
mod common;
#[path = "common/days.rs"]
mod days;
#[path = "common/skipped.rs"]
mod skipped;
use common::{event, profile, Dice};
use days::{day, sitting};
use desk::answers::evening;
use desk::report::{self, Made};
use desk::serve::{state, Bench, Said};
use desk::session::sitting::Sitting;
use mbrumzheg::{Column, Event, Figures, RECORD16_SIZE};
use std::fs;
use std::io::{Read, Write};
use std::path::{Path, PathBuf};
use std::process::{Command, Stdio};

/// A random day at the desk.
fn passed(seed: u64) -> Sitting {
    let mut dice = Dice::new(seed);
    let mut sitting = sitting(&profile(&mut dice));
    for _ in 0..80 {
        let next = event(&mut dice, sitting.clock().ms(), sitting.state().root_count());
        sitting.pass(next);
    }
    sitting
}

/// The rows of a table of commas, the names of its columns left out.
fn rows_of(csv: &str) -> Vec<Vec<String>> {
    csv.split("\r\n").skip(1).filter(|line| !line.is_empty()).map(|line| line.split(',').map(str::to_string).collect()).collect()
}

#[test]
fn the_firms_row_is_what_the_desk_itself_has_summed() {
    let mut met = [0; 8];
    for seed in 0..120 {
        let sitting = passed(seed);
        let day = day(&sitting, None);
        assert_eq!(day.account, sitting.account, "seed {seed}: a replay has the same account");
        let firm = sitting.account.firm();
        let of = |column: Column| firm.of(column);
        assert_eq!((of(Column::Accepted) + of(Column::Rejected), of(Column::Cuts)), (orders(&sitting), day.sums.cuts), "seed {seed}");
        assert_eq!((of(Column::Contracts), u128::from(of(Column::Notional))), (day.sums.granted, day.sums.notional), "seed {seed}");
        assert_eq!(of(Column::AwayReports), day.sums.reports, "seed {seed}");
        let trips: u64 = evening::rows(&sitting.profile, &sitting.account).iter().map(|(_, figures)| figures.of(Column::Trips)).sum();
        assert_eq!(trips, day.sums.trips, "seed {seed}");
        met.iter_mut().zip(firm.numbers()).for_each(|(met, figure)| *met += figure);
    }
    assert!(met.iter().all(|figure| *figure > 50), "{met:?}");
}

/// How many orders and sendings of a day were not refused.
fn orders(sitting: &Sitting) -> u64 {
    let mut again = self::sitting(std::str::from_utf8(&sitting.profile.text).expect("text"));
    let mut pieces = sitting.day.pieces().expect("a reader");
    let mut count = 0;
    while let Some(piece) = desk::records::source::Source::next(&mut pieces, again.clock()).expect("read") {
        let passed = again.answer_piece(&piece, &mut ());
        count += u64::from(passed.answer.is_ok() && matches!(passed.event, Some(Event::Order { .. } | Event::Send(_))));
    }
    count
}

#[test]
fn every_form_of_the_table_has_the_same_figures() {
    for seed in 0..40 {
        let sitting = passed(seed);
        let rows: Vec<(String, Figures)> = evening::rows(&sitting.profile, &sitting.account);
        let wanted: Vec<Vec<String>> =
            rows.iter().map(|(name, figures)| [vec![name.clone()], figures.numbers().map(|n| n.to_string()).to_vec()].concat()).collect();
        assert_eq!(rows.len(), sitting.profile.roots.len() + 1);
        assert_eq!(rows.last().map(|(name, _)| name.as_str()), Some("firm ABCD"));
        assert_eq!(rows_of(&evening::csv(&sitting.profile, &sitting.account)), wanted);
        let (day, made) = (day(&sitting, None), Made::at_the_desk(&sitting));
        let figures = report::of_name("day.csv", &sitting.profile, &day, &made);
        assert!(figures.contains(&evening::csv(&sitting.profile, &sitting.account)), "seed {seed}");
        let json = report::of_name("day.json", &sitting.profile, &day, &made);
        let page = report::of_name("day.html", &sitting.profile, &day, &made);
        for row in &rows {
            let cells = evening::cells(row);
            assert!(json.contains(&format!("{{\"of\":\"{}\",\"accepted\":{},", row.0, row.1.of(Column::Accepted))), "seed {seed}");
            assert!(page.contains(&format!("<tr><td>{}</td>", cells[0])) && page.contains(&format!("<td class=\"n\">{}</td>", cells[5])));
        }
        let told = evening::table(&sitting.profile, &sitting.account);
        assert!(told.lines().all(|line| line.chars().count() <= 80), "{told}");
    }
}

#[test]
fn the_desk_shows_and_saves_it_and_so_does_its_page() {
    let place = workplace("desk");
    fs::write(place.join("profile"), "ABCD,abs_vol,XYZ,100\nABCD,abs_vol,Q,1000\nABCD,abs_vol,,150,,T\n").expect("written");
    let events = "offer 0ms XYZ call front 7.00 60\noffer 1ms XYZ call front 7.00 60\norder 2ms XYZ\naway 3ms Q call front 1.00 90 7 2\nback 4ms 7 80\nclose 5ms 7\n";
    let mut child = Command::new(env!("CARGO_BIN_EXE_desk"));
    let lines = format!("arm profile\n{events}account\naccount evening.csv\naccount evening.csv\naccount evening.csv over\nsave day\n");
    let said = ran(child.current_dir(&place), lines.as_bytes());
    let table = "of         accepted  rejected  fills  contracts  notional  cuts  trips  away\n\
                 XYZ               0         1      2        100      $700     1      1     0\n\
                 Q                 1         0      0          0        $0     0      0     1\n\
                 firm ABCD         1         1      2        100      $700     1      1     1\n";
    assert!(said.contains(table), "{said}");
    assert_eq!(said.matches("saved the account of 2 roots and the firm to evening.csv").count(), 2, "{said}");
    assert!(said.contains("'evening.csv' is there already and is left alone; type account evening.csv over"), "{said}");
    let csv = "of,accepted,rejected,fills,contracts,notional,cuts,trips,away_reports\r\nXYZ,0,1,2,100,7000000,1,1,0\r\nQ,1,0,0,0,0,0,0,1\r\nfirm ABCD,1,1,2,100,7000000,1,1,1\r\n";
    assert_eq!(fs::read_to_string(place.join("evening.csv")).expect("saved"), csv);
    let mut bench = Bench::default();
    bench.arm("profile", &fs::read(place.join("profile")).expect("a profile")).expect("armed");
    bench.replay("day", &fs::read(place.join("day")).expect("saved"), desk::library::form::Form::New).expect("replayed");
    assert_eq!((bench.account(), bench.line("account")), (Ok(csv.to_string()), Ok(Said::Words(table.trim_end().to_string()))));
    assert!(state(&bench, "").expect("a state").contains("[\"firm ABCD\",\"1\",\"1\",\"2\",\"100\",\"$700\",\"1\",\"1\",\"1\"]"));
    // going back takes out what was counted
    bench.go(1).expect("undone");
    assert!(bench.account().expect("armed").ends_with("firm ABCD,0,0,1,60,4200000,0,0,0\r\n"));
    fs::remove_dir_all(place).expect("removed");
}

fn workplace(name: &str) -> PathBuf {
    let place = std::env::temp_dir().join(format!("desk-evening-{name}-{}", std::process::id()));
    fs::create_dir_all(&place).expect("a folder");
    place
}

/// What a program prints for an input.
fn ran(command: &mut Command, input: &[u8]) -> String {
    let mut child = command.stdin(Stdio::piped()).stdout(Stdio::piped()).stderr(Stdio::null()).spawn().expect("it runs");
    let mut pipe = child.stdin.take().expect("a pipe");
    let bytes = input.to_vec();
    let writing = std::thread::spawn(move || pipe.write_all(&bytes));
    let output = child.wait_with_output().expect("ended");
    // a program that ends before its input does has closed the pipe
    let _ = writing.join().expect("written");
    String::from_utf8(output.stdout).expect("text")
}

/// The programs that print an evening table and were built: the proved one, and the second program's.
fn programs() -> Vec<Vec<PathBuf>> {
    let top = Path::new(env!("CARGO_MANIFEST_DIR")).join("..");
    let second = std::env::var_os("SECOND").map_or_else(|| top.join("target/cargo/release"), PathBuf::from).join("second-evening");
    let mut all = Vec::new();
    match second.exists() {
        true => all.push(vec![second]),
        false => skipped::skipped("the desk beside the second program's evening table, since it is not built"),
    }
    match top.join("crates/evening/out/evening").exists() {
        true => all.push(vec![top.join("tools/program"), PathBuf::from("evening")]),
        false => skipped::skipped("the desk beside the proved program's evening table, since it is not built"),
    }
    all
}

#[test]
fn the_table_is_that_of_the_programs() {
    let place = workplace("programs");
    for program in programs() {
        for seed in 0..12 {
            let sitting = passed(seed);
            let mut records = Vec::new();
            sitting.day.reader().and_then(|mut reader| reader.read_to_end(&mut records)).expect("read");
            // a faulty record and a short one are counted nowhere
            records.extend([0xFF; RECORD16_SIZE + 3]);
            fs::write(place.join("profile"), &sitting.profile.text).expect("written");
            let printed = ran(Command::new(&program[0]).args(&program[1..]).current_dir(&place), &records);
            let csv = evening::csv(&sitting.profile, &sitting.account);
            let wanted: Vec<String> = rows_of(&csv).iter().map(|cells| cells.join(" ").replace("firm ABCD", "ABCD")).collect();
            assert_eq!(printed.lines().collect::<Vec<_>>(), wanted, "{program:?}, seed {seed}");
        }
    }
    fs::remove_dir_all(place).expect("removed");
}
