//! No input makes the desk panic, and what it prints stays text: random bytes, random words, random files.
mod common;
use common::{profile, Dice};
use desk::console::lines::{run, Manner};
use std::fs;
use std::path::PathBuf;

/// A folder of its own for what random commands read and write.
fn workplace(name: &str) -> PathBuf {
    let place = std::env::temp_dir().join(format!("desk-random-{name}-{}", std::process::id()));
    fs::create_dir_all(&place).expect("a folder");
    place
}

/// Runs input and checks what came out.
fn spoken(input: &[u8]) -> String {
    let mut out = Vec::new();
    run(&mut &input[..], &mut out, Manner::Shown).expect("memory takes every answer");
    let text = String::from_utf8(out).expect("the desk writes text");
    assert!(text.chars().all(|c| c == '\n' || !c.is_control()), "no control characters");
    text
}

#[test]
fn random_bytes() {
    let mut dice = Dice::new(1);
    for length in 0..600 {
        let bytes: Vec<u8> = (0..length * 4).map(|_| dice.below(256) as u8).collect();
        spoken(&bytes);
    }
    // one line longer than the desk takes at once
    spoken(&vec![b'a'; 300_000]);
    spoken(&[b"offer ".to_vec(), vec![0xF0; 200_000]].concat());
}

/// Words that commands are made of, good and bad.
#[rustfmt::skip]
const WORDS: [&str; 83] = [
    "arm", "offer", "order", "lock", "remaining", "status", "clear", "save", "replay", "report", "help", "offer", "offer",
    "order", "arm", "XYZ", "QQQ", "7", "xyz", "SPY", "firm", "FIRM", "call", "put", "front", "trailing", "calls", "puts",
    "reset", "symbol", "both", "none", "quiet", "0ms", "10ms", "5s", "2.5s", "now", "+1ms", "+100ms", "+0ms", "09:30",
    "23:59:59.999", "24:00:00", "1h", "86399999ms", "86400000ms", "18446744073709551615ms", "+18446744073709551615ms", "7.00",
    "0.0001", "10000", "10000.0001", "1", "200", "1000000", "0", "-1", "1e9", ",", ",,1", "1,000", ".5", "5.", "$", "$7",
    "18446744073709551616", "rule", "words", "t", "te", "away", "back", "close",
    "7", "16", "ms", ":", "::", "+", "é", "\u{1F512}", "#",
];

fn line(dice: &mut Dice, files: &[String]) -> String {
    let count = 1 + dice.below(7);
    let words: Vec<&str> = (0..count).map(|_| dice.pick(&WORDS)).collect();
    // files are named by these alone, so that nothing is written elsewhere
    match words[0] {
        name @ ("arm" | "save" | "replay" | "report") => format!("{name} {}", files[dice.below(files.len() as u64) as usize]),
        _ => words.join(" "),
    }
}

/// A line that is carried out on an armed unit, most of the time.
fn good_line(dice: &mut Dice) -> String {
    let root = dice.pick(&["XYZ", "QQQ", "7"]);
    let time = dice.pick(&["now", "+1ms", "+50ms", "+1s", "0ms"]);
    match dice.below(11) {
        8 => format!(
            "away {time} {root} call front 1.00 {} {} {}",
            dice.pick(&["1", "30"]),
            dice.pick(&["1", "2"]),
            dice.pick(&["1", "16", "17"])
        ),
        9 => format!("back {time} {} {}", dice.pick(&["1", "2"]), dice.pick(&["1", "5", "30"])),
        10 => format!("close {time} {}", dice.pick(&["1", "2", "65536"])),
        0 => format!("lock {time} {root}"),
        1 => format!("order {time} {root} reset {}", dice.pick(&["symbol", "firm", "both", "none", "t", "e", "te"])),
        2 => format!("remaining {time} {}", dice.pick(&["", "firm", "XYZ put front", "rule 0", "rule 1 call trailing", "rule 9"])),
        3 => "status".to_string(),
        _ => {
            let unit = dice.pick(&["call front", "call trailing", "put front", "put trailing"]);
            format!("offer {time} {root} {unit} {} {}", dice.pick(&["0.01", "7.00", "10000"]), dice.pick(&["1", "30", "1000000"]))
        }
    }
}

#[test]
fn random_words_and_files() {
    let place = workplace("words");
    let names = ["profile", "records", "bytes", "page.html", "new", "no/such/folder"];
    let files: Vec<String> = names.iter().map(|name| place.join(name).to_string_lossy().into_owned()).collect();
    let (mut granted, mut pages) = (0, 0);
    for seed in 0..300 {
        let mut dice = Dice::new(seed);
        fs::write(&files[0], profile(&mut dice)).expect("written");
        let bytes: Vec<u8> = (0..dice.below(500)).map(|_| dice.below(256) as u8).collect();
        fs::write(&files[2], bytes).expect("written");
        for file in [&files[1], &files[3], &files[4]] {
            // a file that was not written yet cannot be removed, which is as well
            let _ = fs::remove_file(file);
        }
        let mut script = format!("arm {}\n", files[0]);
        for _ in 0..60 {
            let next = if dice.below(2) == 0 { line(&mut dice, &files) } else { good_line(&mut dice) };
            script.push_str(&next);
            script.push('\n');
        }
        let text = spoken(script.as_bytes());
        granted += text.matches("granted ").count();
        pages += text.matches("wrote a page").count();
    }
    fs::remove_dir_all(place).expect("removed");
    assert!(granted > 500 && pages > 20, "{granted} grants and {pages} pages were among the answers");
}

#[test]
fn random_profiles() {
    let place = workplace("profiles");
    let file = place.join("profile");
    for seed in 0..500 {
        let mut dice = Dice::new(seed);
        let mut text = profile(&mut dice).into_bytes();
        for _ in 0..dice.below(4) {
            let at = dice.below(text.len() as u64) as usize;
            text[at] = dice.pick(b",,\n\r TCPF0A\x00\x1b\xff");
        }
        fs::write(&file, &text).expect("written");
        let name = file.to_string_lossy();
        let answers = spoken(format!("arm {name}\nremaining\nstatus\noffer 0ms XYZ put front 1 1\nreport {name}.html\n").as_bytes());
        assert!(answers.contains("armed for firm") || answers.contains("not armed"), "{answers}");
    }
    fs::remove_dir_all(place).expect("removed");
}
