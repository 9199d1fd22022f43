//! The files that the served desk hands out and takes: records, old ones where that is said, and words.
#[path = "common/asking.rs"]
mod asking;
mod browser;
#[path = "common/serving.rs"]
mod serving;
use asking::{get, post, state};
use browser::json::Json;
use serving::{workplace, Serving};
use std::fs;

#[test]
fn a_day_is_saved_as_records_or_in_words() {
    let place = workplace("files");
    let serving = Serving::begin(&place, &[]);
    for path in ["day.records", "day.txt", "account.csv"] {
        assert_eq!(get(&serving, path).0, 409, "nothing is armed");
    }
    assert_eq!(post(&serving, "arm", b"ABCD,abs_vol,XYZ,100").0, 200);
    assert_eq!(post(&serving, "line", b"offer 0ms XYZ call front 1.00 120").0, 200);
    assert_eq!(get(&serving, "day.records").1.len(), 16);
    let account = String::from_utf8(get(&serving, "account.csv").1).expect("text");
    assert_eq!(account.lines().nth(1), Some("XYZ,0,0,1,100,1000000,1,1,0"));
    assert_eq!(state(&serving).get("armed").get("account").list().len(), 3, "the columns' names, a root and the firm");
    assert_eq!(state(&serving).get("unsaved"), &Json::Bool(false));
    assert_eq!(post(&serving, "line", b"order 1.250ms XYZ reset t").0, 200);
    assert_eq!(state(&serving).get("unsaved"), &Json::Bool(true));
    let (status, words) = get(&serving, "day.txt");
    assert_eq!((status, state(&serving).get("unsaved")), (200, &Json::Bool(false)));
    let (status, records) = get(&serving, "day.records");
    assert_eq!((status, records.len()), (200, 32));
    // what was saved is the same day again, and reported
    let before = state(&serving).get("log").clone();
    for (name, bytes) in [("day.txt", &words), ("day.records", &records)] {
        assert_eq!((post(&serving, "clear", b"").0, post(&serving, "arm", b"ABCD,abs_vol,XYZ,100").0), (200, 200));
        assert_eq!(post(&serving, &format!("replay?name={name}"), bytes).0, 200);
        assert_eq!(state(&serving).get("log"), &before);
    }
    let page = String::from_utf8(get(&serving, "report.html").1).expect("text");
    for wanted in [
        "<title>1 unlock, record 2</title>",
        &desk::records::sha256::hex(&records),
        "<td>te</td><td>unlock</td><td>nothing</td><td>the root and the firm</td>",
    ] {
        assert!(page.contains(wanted), "{wanted} is in the page");
    }
    // a bad line is said, and changes nothing
    let (status, said) = post(&serving, "replay", &[&words[..], b"order 3ms SPY\n"].concat());
    assert_eq!((status, state(&serving).get("place").number()), (422, 2));
    assert!(said.get("advice").text().starts_with("records is left alone, since line 4: the profile has no root 'SPY'"), "{said:?}");
    fs::remove_dir_all(place).expect("removed");
}

#[test]
fn old_records_are_taken_where_that_is_said() {
    let place = workplace("old-files");
    let serving = Serving::begin(&place, &[]);
    let old = [0x40, 0, 0, 0x50, 0, 0x01, 0x11, 0x70, 0, 0x0C, 0x80, 0];
    assert_eq!(post(&serving, "arm", b"ABCD,abs_vol,XYZ,100").0, 200);
    let (status, said) = post(&serving, "replay?name=day", &old);
    let why = "day is left alone, since its 12 bytes are no records of 16 bytes, but 1 record of 12: say old (--old in a call)";
    assert!(status == 422 && said.get("advice").text().starts_with(why), "{said:?}");
    assert_eq!(post(&serving, "replay?name=day&form=old", &old).0, 200);
    assert_eq!(state(&serving).get("place").number(), 1);
    let (status, records) = get(&serving, "day.records");
    assert_eq!((status, &records[..]), (200, &[0x10, 0, 0, 0x13, 0x88, 0, 0, 0x11, 0x17, 0, 0, 0xC8, 0, 0, 0, 0][..]));
    fs::remove_dir_all(place).expect("removed");
}
