//! The desk's rooms use each other one way, no files go in a circle, and one room alone calls the library.

#[path = "common/house.rs"]
mod house;
#[path = "common/paths.rs"]
mod paths;
use house::House;
use std::path::Path;

#[test]
fn the_desk_keeps_to_its_rooms() {
    let house = House::read(&Path::new(env!("CARGO_MANIFEST_DIR")).join("src"));
    assert_eq!(house.faults(), Vec::<String>::new());
    assert!(house.rooms() >= 10, "the rooms are read: {}", house.rooms());
}

const WORDS: (&str, &str) = ("words/mod.rs", "//! Words.\n//!\n//! May use: no other room.\n\nmod times;\npub use times::time;\n");
const TIMES: (&str, &str) = ("words/times.rs", "use mbrumzheg::Time;\n");
const SESSION: (&str, &str) = ("session/mod.rs", "//! The sitting.\n//!\n//! May use: words.\n\npub mod sitting;\n");
const SITTING: (&str, &str) = ("session/sitting.rs", "use crate::words::{self, time};\nfn f() { crate::words::time() }\n");

/// What is wrong with the small house where one of its files is another, or one more is there.
fn faults_with(path: &str, text: &str) -> Vec<String> {
    House::of([WORDS, TIMES, SESSION, SITTING, (path, text)]).faults()
}

#[test]
fn a_small_house_is_good() {
    assert_eq!(House::of([WORDS, TIMES, SESSION, SITTING]).faults(), Vec::<String>::new());
    // a file above the rooms may use each of them, and what is for tests alone is not looked at
    assert_eq!(faults_with("program.rs", "use crate::{session::sitting, words};\n"), Vec::<String>::new());
    assert_eq!(
        faults_with("words/times.rs", "#[cfg(test)]\nmod tests { use crate::session::sitting; use mbrumzheg::Unit; }\n"),
        Vec::<String>::new()
    );
    assert_eq!(faults_with("words/times.rs", "// crate::session was here\n"), Vec::<String>::new());
}

#[test]
fn an_arrow_the_wrong_way_is_found() {
    let wanted = "words/times.rs: the room words may not use session";
    for text in [
        "use crate::session::sitting::Sitting;\n",
        "use crate::{\n    words,\n    session::{self, sitting},\n};\n",
        "fn f() -> u64 { crate::session::sitting::g() }\n",
    ] {
        assert!(faults_with("words/times.rs", text).contains(&wanted.to_string()), "{text}");
    }
    let above = faults_with("session/sitting.rs", "use crate::{program::main, words};\n");
    assert_eq!(above, ["session/sitting.rs: the room session may not use program"]);
}

#[test]
fn a_circle_is_found() {
    let through_the_head = faults_with("words/times.rs", "use crate::words::time;\n");
    assert_eq!(through_the_head, ["the files go in a circle: words/mod.rs -> words/times.rs -> words/mod.rs"]);
    let rooms = faults_with("words/mod.rs", "//! Words.\n//!\n//! May use: session.\n\nuse crate::session::sitting;\n");
    let wanted = [
        "rooms may go in a circle: session -> words -> session",
        "files go in a circle: session/sitting.rs -> words/mod.rs -> session/sitting.rs",
    ];
    assert_eq!(rooms, wanted.map(|circle| format!("the {circle}")));
    let long = [
        ("session/a.rs", "use crate::session::b::B;\n"),
        ("session/b.rs", "use crate::session::{c::C, sitting};\n"),
        ("session/c.rs", "use crate::session::a::A;\n"),
    ];
    let faults = House::of([WORDS, TIMES, SESSION, SITTING].into_iter().chain(long)).faults();
    assert_eq!(faults, ["the files go in a circle: session/a.rs -> session/b.rs -> session/c.rs -> session/a.rs"]);
}

#[test]
fn a_call_of_the_library_from_another_room_is_found() {
    for (text, call) in [
        ("use crate::words;\nuse mbrumzheg::{Time, Unit};\n", "Unit"),
        ("use crate::words;\nfn f() { mbrumzheg::widen(&[]) }\n", "widen"),
        ("use crate::words;\nfn f(event: Event) { event.to_record16() }\n", "to_record"),
    ] {
        let wanted = format!("session/sitting.rs: {call} calls the library, for which there is the room library");
        assert_eq!(faults_with("session/sitting.rs", text), [wanted]);
    }
    let library = "//! The library.\n//!\n//! May use: no other room.\n\nuse mbrumzheg::Unit;\n";
    assert_eq!(faults_with("library/mod.rs", library), Vec::<String>::new());
}

#[test]
fn a_room_without_a_word_a_word_without_need_and_a_hidden_path_are_found() {
    assert_eq!(faults_with("session/sitting.rs", "use mbrumzheg::Time;\n"), ["the room session may use words and does not"]);
    assert_eq!(faults_with("cellar/wine.rs", ""), ["cellar/wine.rs: the room cellar does not say which rooms it may use"]);
    assert_eq!(
        faults_with("session/sitting.rs", "use crate::words;\nuse super::ledger;\n"),
        ["session/sitting.rs: a path from super, which hides what is used"]
    );
}
