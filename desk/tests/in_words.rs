//! A day in words is the same day again: every event, refused and faulty records too, and what a bad line does.
mod common;
#[path = "common/days.rs"]
mod days;
use common::{event, profile, Dice};
use days::sitting;
use desk::console::lines::{run, Manner};
use desk::files::in_words::{self, HEAD};
use desk::files::opened::{self, Opened};
use desk::library::form::Form;
use desk::library::piece::Piece;
use desk::profile::Profile;
use desk::records::source::Source;
use mbrumzheg::{Event, Time};
use std::fs;

/// The pieces of some bytes, or why they cannot be read to their end.
fn read(bytes: &[u8], profile: &Profile) -> Result<(Vec<Piece>, bool), String> {
    let Opened { pieces: mut from, are_words, .. } = opened::of_file(bytes, None, Form::New, profile)?;
    let mut pieces = Vec::new();
    while let Some(piece) = from.next(Time::from_ms(7).expect("a time"))? {
        pieces.push(piece);
    }
    Ok((pieces, are_words))
}

#[test]
fn a_day_in_words_is_the_day_again() {
    let (mut sent, mut faulty) = (0, 0);
    for seed in 0..200 {
        let mut dice = Dice::new(seed);
        let text = profile(&mut dice);
        let (mut first, mut second) = (sitting(&text), sitting(&text));
        for _ in 0..60 {
            let next = match dice.below(12) {
                0 => Piece::of_bytes(&(0..16).map(|_| dice.below(256) as u8).collect::<Vec<u8>>()),
                _ => Piece::of(event(&mut dice, first.clock().ms(), first.state().root_count())),
            };
            faulty += usize::from(next.event().is_none());
            sent += usize::from(matches!(next.event(), Some(Event::Send(_))));
            first.pass_piece(&next);
        }
        let words = in_words::of_day(&first.profile, &first.day).expect("words");
        let (pieces, are_words) = read(&words, &first.profile).expect("every line is an event");
        assert!(are_words, "seed {seed}");
        let mut kept = first.day.pieces().expect("a reader");
        assert_eq!(pieces, std::iter::from_fn(|| kept.next(Time::START).expect("read")).collect::<Vec<_>>(), "seed {seed}");
        pieces.iter().for_each(|piece| drop(second.pass_piece(piece)));
        assert_eq!((first.state().memory(), first.day.sum()), (second.state().memory(), second.day.sum()));
        assert_eq!(in_words::of_day(&second.profile, &second.day), Ok(words.clone()), "written again they are the same bytes");
    }
    assert!(sent > 500 && faulty > 500, "{sent} orders sent away, {faulty} faulty records");
}

#[test]
fn no_record_begins_as_words_do() {
    assert_eq!((Event::from_record16(&HEAD.as_bytes()[..16]).ok(), Event::from_record(&HEAD.as_bytes()[..12]).ok()), (None, None));
    let profile = Profile::of_accepted(b"ABCD,abs_vol,XYZ,5");
    for length in 1..HEAD.len() {
        assert_eq!(read(&HEAD.as_bytes()[..length], &profile), Ok((vec![], true)), "a part of the line is a comment");
    }
    assert_eq!(read(HEAD.as_bytes(), &profile), Ok((vec![], true)));
}

#[test]
fn lines_are_read_as_they_would_be_typed() {
    let profile = Profile::of_accepted(b"ABCD,abs_vol,XYZ,5");
    let of = |line: &str| read(format!("{HEAD}\n# a comment\n  {line}  \r\n").as_bytes(), &profile).map(|(pieces, _)| pieces);
    let time = |ms: u64| Time::from_ms(ms).expect("a time");
    for (line, ms) in [("order 10ms xyz reset t", 10), ("LOCK now firm", 7), ("offer +3ms XYZ put front 1 5", 10), ("lock XYZ", 7)] {
        assert_eq!(of(line).map(|pieces| pieces[0].event().map(|event| event.time())), Ok(Some(time(ms))), "{line}");
    }
    assert_eq!(of("record ff00"), Ok(vec![Piece::of_bytes(&[0xFF, 0])]));
    for (line, why) in [
        ("order 10ms SPY", "line 4: the profile has no root 'SPY'"),
        ("status", "line 4: that is no event"),
        ("save day over", "line 4: that is no event"),
        ("nonsense", "line 4: 'nonsense' is no command"),
        ("record", "line 4: 'record' is no command"),
        ("record 0", "line 4: '0' are not the bytes of a record"),
        ("record 0g", "line 4: '0g' are not the bytes of a record"),
        ("record 00112233445566778899aabbccddeeff00", "line 4: '00112233445566778899aabbccddeeff00' are not the bytes of a record"),
        (&"x".repeat(2_000), "line 4 is longer than any event"),
    ] {
        let said = of(line).expect_err(line);
        assert!(said.starts_with(why), "{said}");
    }
}

#[test]
fn the_desk_keeps_and_takes_a_day_in_words() {
    let place = std::env::temp_dir().join(format!("desk-in-words-{}", std::process::id()));
    fs::create_dir_all(&place).expect("a folder");
    fs::write(place.join("profile"), "ABCD,abs_vol,XYZ,100\n").expect("written");
    let spoken = |lines: &str| {
        let (mut out, at) = (Vec::new(), format!("{}/", place.display()));
        let ended = run(&mut lines.replace('@', &at).as_bytes(), &mut out, Manner::Shown).expect("memory takes every answer");
        (String::from_utf8(out).expect("text").replace(&at, "@"), ended)
    };
    let typed = "arm @profile\noffer 0ms XYZ call front 1.00 120\norder 1ms XYZ reset t\norder 2ms XYZ reset te\n";
    let (said, ended) = spoken(&format!("{typed}save @day words\nsave @day words\nsave @day words over\nreport @typed.json\n"));
    assert_eq!((said.matches("saved 3 events in words to @day").count(), ended.not_done, ended.unsaved), (2, 1, 0), "{said}");
    let words = fs::read_to_string(place.join("day")).expect("saved");
    assert_eq!(words, format!("{HEAD}offer 0ms XYZ call front 1.00 120\norder 1ms XYZ reset t\norder 2ms XYZ reset te\n"));
    let (said, _) = spoken("arm @profile\nreplay @day\nsave @again words\nreport @replayed.json\n");
    assert!(said.contains("order 1ms XYZ reset t: root XYZ unlocked, its counts stay; the order on XYZ may pass  [2 0 0 0 0 0]"), "{said}");
    assert_eq!(fs::read_to_string(place.join("again")).expect("saved"), words);
    // the figures are the same, and so is the sum, which is that of the day's records
    let figures = |name: &str| fs::read_to_string(place.join(name)).expect("figures");
    spoken("arm @profile\nreplay @day quiet\nsave @records\n");
    let sum = format!("\"sha256\":\"{}\"", desk::records::sha256::hex(&fs::read(place.join("records")).expect("saved")));
    assert!(figures("typed.json").contains(&sum) && figures("replayed.json").contains(&sum));
    let rest = |name: &str| figures(name).split_once("\"times\"").expect("times").1.to_string();
    assert_eq!(rest("typed.json"), rest("replayed.json"));
    // a day with a bad line is left alone, and the place is said
    fs::write(place.join("bad"), format!("{words}order 3ms SPY\norder 4ms XYZ\n")).expect("written");
    let (said, ended) = spoken("arm @profile\nreplay @bad quiet\nstatus\n");
    assert!(said.contains("'@bad' is left alone, since line 5: the profile has no root 'SPY'"), "{said}");
    assert!(said.contains("clock 0ms, 0 events passed") && ended.not_done == 1, "{said}");
    fs::remove_dir_all(place).expect("removed");
}

#[test]
fn what_is_written_is_what_is_typed() {
    let profile = Profile::of_accepted(b"ABCD,abs_vol,XYZ,5");
    let mut out = Vec::new();
    let bytes = [[0xFF; 16].as_slice(), &[1, 2]].concat();
    let mut opened = opened::of_file(&bytes[..], None, Form::New, &profile).expect("memory is read");
    in_words::write(&profile, &mut *opened.pieces, &mut out).expect("memory takes every byte");
    assert_eq!(String::from_utf8_lossy(&out), format!("{HEAD}record {}\nrecord 0102\n", "ff".repeat(16)));
}
