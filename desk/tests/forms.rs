//! Files of records in both forms: old ones are read where that is said, moved there and back, and a length that does not fit is told.
mod common;
use common::{event, profile, Dice};
use mbrumzheg::{Event, Reset};
use std::fs;
use std::path::{Path, PathBuf};
use std::process::Command;

fn workplace(name: &str) -> PathBuf {
    let place = std::env::temp_dir().join(format!("desk-forms-{name}-{}", std::process::id()));
    fs::create_dir_all(&place).expect("a folder");
    fs::write(place.join("profile"), "ABCD,abs_vol,XYZ,1000\n").expect("written");
    place
}

/// Calls the desk in a folder with lines on its standard input; what it says on both outputs, and what it ends with.
fn desk(place: &Path, words: &[&str], lines: &str) -> (String, Option<i32>) {
    fs::write(place.join("lines"), lines).expect("written");
    let input = fs::File::open(place.join("lines")).expect("lines");
    let output = Command::new(env!("CARGO_BIN_EXE_desk")).current_dir(place).args(words).stdin(input).output().expect("the desk runs");
    (String::from_utf8([output.stdout, output.stderr].concat()).expect("text"), output.status.code())
}

/// A day's records in the old form, as random events that it has, some of them refused.
fn old_day(dice: &mut Dice) -> Vec<u8> {
    (0..40).filter_map(|n| event(dice, n * 40, 3).to_record().ok()).flatten().collect()
}

#[test]
fn an_old_file_is_the_same_day_as_its_moved_one() {
    let place = workplace("same");
    for seed in 0..20 {
        let mut dice = Dice::new(seed);
        fs::write(place.join("profile"), profile(&mut dice)).expect("written");
        let old = old_day(&mut dice);
        fs::write(place.join("old"), &old).expect("written");
        let records = old.len() / 12;
        let (said, end) = desk(&place, &["-"], "widen old new over\nnarrow new back over\n");
        assert!(said.contains(&format!("moved {records} records of 12 bytes to new, as records of 16")), "{said}");
        assert!(said.contains(&format!("moved {records} records of 16 bytes to back, as records of 12")) && end == Some(0), "{said}");
        assert_eq!(fs::read(place.join("back")).expect("moved"), old, "there and back gives the same bytes");
        let (said, end) = desk(&place, &["-"], "arm profile\nreplay old old\nsave kept over\n");
        assert_eq!(end, Some(0), "{said}");
        assert_eq!(fs::read(place.join("kept")).expect("saved"), fs::read(place.join("new")).expect("moved"), "seed {seed}");
        let (again, _) = desk(&place, &["-"], "arm profile\nreplay new\nsave kept over\n");
        assert_eq!(said.replace("replay old old", "replay new"), again, "the same answers");
        // a report of either has the same figures
        let (one, _) = desk(&place, &["report", "--old", "profile", "old", "old.json"], "");
        let (other, _) = desk(&place, &["report", "profile", "new", "new.json"], "");
        assert_eq!(one.replace("old.json", "new.json"), other);
    }
    fs::remove_dir_all(place).expect("removed");
}

#[test]
fn what_does_not_fit_is_said_and_nothing_is_written() {
    let place = workplace("unfit");
    let (said, _) = desk(
        &place,
        &["-"],
        "arm profile\norder 1ms XYZ\norder 2ms XYZ reset te\nsave resets\norder 2.250ms XYZ\nsave micros\naway 3ms XYZ call front 7.00 5 9 1\nsave away\n",
    );
    assert_eq!(said.matches("saved ").count(), 3, "{said}");
    let cut = |name: &str, from: usize| {
        let bytes = fs::read(place.join(name)).expect("saved");
        fs::write(place.join(name), &bytes[from..]).expect("written");
    };
    cut("micros", 32);
    cut("away", 48);
    for (name, why) in [
        ("resets", "record 2, an order at 2ms on root 0, does not fit the old form (refused with 20): it has no reset te"),
        (
            "micros",
            "record 1, an order at 2.250ms on root 0, does not fit the old form (refused with 20): its times are whole milliseconds",
        ),
        ("away", "record 1, order 9 sent away at 3ms on root 0, does not fit the old form (refused with 20): it has no such kind"),
    ] {
        let (said, end) = desk(&place, &["narrow", name, "old"], "");
        assert_eq!((said, end), (format!("desk: {why}; '{name}' is not moved\n"), Some(1)));
        assert!(!place.join("old").exists());
    }
    fs::write(place.join("faulty"), [0xFF; 12]).expect("written");
    let (said, end) = desk(&place, &["widen", "faulty", "new"], "");
    assert!(said.starts_with("desk: record 1 is faulty (refused with 16): ") && end == Some(1) && !place.join("new").exists(), "{said}");
    // what is there is left alone
    let (said, end) = desk(&place, &["narrow", "resets", "profile"], "");
    assert!(said.contains("'profile' is there already and is left alone; type narrow FILE profile over") && end == Some(1), "{said}");
    let (said, end) = desk(&place, &["widen", "resets"], "");
    assert!(said.contains("widen takes other words after it") && end == Some(2), "{said}");
    fs::remove_dir_all(place).expect("removed");
}

#[test]
fn a_length_that_does_not_fit_is_told() {
    let place = workplace("length");
    let order = |ms: u64| {
        let time = mbrumzheg::Time::from_ms(ms).expect("a time");
        Event::Order { time, root: mbrumzheg::Root::new(0).expect("a root"), reset: Reset::None }
    };
    let old: Vec<u8> = (0..3).flat_map(|ms| order(ms).to_record().expect("it fits")).collect();
    fs::write(place.join("old"), &old).expect("written");
    let left_alone = "'old' is left alone, since its 36 bytes are no records of 16 bytes, but 3 records of 12: say old (--old in a call) to read them so, or move the file with desk widen";
    let (said, end) = desk(&place, &["-"], "arm profile\nreplay old\nstatus\n");
    assert!(said.contains(left_alone) && said.contains("0 events passed") && end == Some(1), "{said}");
    let (said, end) = desk(&place, &["report", "profile", "old", "page.html"], "");
    assert_eq!((said, end), (format!("desk: {left_alone}\n"), Some(1)));
    let (said, end) = desk(&place, &["-"], "arm profile\nreplay old old quiet\n");
    assert!(said.contains("replayed 3 records: 0 cuts") && !said.contains("short") && end == Some(0), "{said}");
    let new: Vec<u8> = (0..2).flat_map(|ms| order(ms).to_record16().expect("a record")).collect();
    fs::write(place.join("new"), &new).expect("written");
    let (said, end) = desk(&place, &["-"], "arm profile\nreplay new old\n");
    assert!(said.contains("its 32 bytes are no records of 12 bytes, but 2 records of 16: leave out old") && end == Some(1), "{said}");
    fs::write(place.join("short"), [&new[..], &[7; 5]].concat()).expect("written");
    let remark = "1 faulty; its 37 bytes fit neither records of 16 bytes nor old ones of 12: the last is short";
    let (said, end) = desk(&place, &["-"], "arm profile\nreplay short\n");
    assert!(said.contains(remark) && said.contains("[3 16 0 0 0 0]") && end == Some(0), "{said}");
    let (said, end) = desk(&place, &["report", "profile", "short", "page.html"], "");
    assert!(said.contains(remark) && end == Some(0), "{said}");
    fs::remove_dir_all(place).expect("removed");
}
