//! The example runs, and a day that is cut in two by a restart goes on as if it had not been.
use mbrumzheg::{Contracts, Event, Level, Offer, Premium, Record16Writer, Reset, Root, Time, UnitOfRoot};
use std::path::{Path, PathBuf};
use std::process::Command;
use std::{env, fs};

fn offer(ms: u64, contracts: u64) -> Event {
    Event::Offer(Offer {
        time: Time::from_ms(ms).expect("a time"),
        root: Root::new(0).expect("a root"),
        unit: UnitOfRoot::CallsFront,
        premium: Premium::from_ten_thousandths(70_000).expect("a premium"),
        contracts: Contracts::new(contracts).expect("contracts"),
    })
}

fn order(us: u64, reset: Reset) -> Event {
    Event::Order { time: Time::from_us(us).expect("a time"), root: Root::new(0).expect("a root"), reset }
}

/// The bytes of a day's records.
fn records(events: &[Event]) -> Vec<u8> {
    let mut writer = Record16Writer::new(Vec::new());
    events.iter().for_each(|event| writer.write(event).expect("memory takes bytes"));
    writer.finish().expect("memory takes bytes")
}

/// The lines that the example prints, and whether it ended well.
fn gateway(folder: &Path, words: &[&str]) -> (Vec<String>, bool) {
    let tests = env::current_exe().expect("this program");
    let program: PathBuf = tests.ancestors().nth(2).expect("cargo's folder").join("examples/gateway");
    let output = Command::new(program).current_dir(folder).args(words).output().expect("cargo test builds the example");
    let lines = String::from_utf8(output.stdout).expect("text");
    (lines.lines().map(str::to_string).collect(), output.status.success())
}

#[test]
fn a_restart_in_the_middle_of_the_day_changes_nothing() {
    let folder = env::temp_dir().join(format!("mbrumzheg-example-{}", std::process::id()));
    fs::create_dir_all(&folder).expect("a folder");
    let lockout = Event::Lockout { time: Time::from_ms(40).expect("a time"), level: Level::Firm };
    let day = records(&[
        offer(0, 950),
        offer(10, 200),
        order(20_000, Reset::None),
        order(30_500, Reset::Symbol),
        lockout,
        order(50_000, Reset::Firm),
        offer(5, 1),
    ]);
    fs::write(folder.join("profile"), "ABCD,abs_vol,XYZ,1000,0").expect("a file");
    fs::write(folder.join("day"), &day).expect("a file");
    fs::write(folder.join("morning"), &day[..48]).expect("a file");
    fs::write(folder.join("afternoon"), &day[48..]).expect("a file");

    let (whole, well) = gateway(&folder, &["profile", "day"]);
    let (morning, _) = gateway(&folder, &["profile", "morning", "state"]);
    let (afternoon, _) = gateway(&folder, &["profile", "afternoon", "state"]);
    fs::write(folder.join("state"), [1; 99]).expect("a file");
    let (_, well_on_damage) = gateway(&folder, &["profile", "afternoon", "state"]);
    fs::remove_dir_all(&folder).expect("the folder goes");

    assert!(well && !well_on_damage);
    assert_eq!(
        whole,
        [
            "armed for firm ABCD (rules: 1, roots: 1), clock 00:00:00.000",
            "00:00:00.000 fill of 950 call front at 7.00 on XYZ: 950 granted",
            "00:00:00.010 fill of 200 call front at 7.00 on XYZ: 50 granted; the root is locked now",
            "00:00:00.020 order on XYZ: rejected, s: RiskMgmtSymLevel",
            "00:00:00.030500 order on XYZ: sent on",
            "00:00:00.040 lockout of the firm: done",
            "00:00:00.050 order on XYZ: sent on",
            "not passed on: refused with 12: the time is no time of the day, or earlier than the unit's clock",
        ]
    );
    assert_eq!(afternoon[0], "armed for firm ABCD (rules: 1, roots: 1), clock 00:00:00.020");
    assert_eq!([&morning[1..], &afternoon[1..]].concat(), whole[1..]);
}
