//! The served page as tests look at it, and the dialogues that the papers have.
#![allow(dead_code)]
use crate::browser::Browser;
use std::fs;
use std::path::Path;

pub const README: &str = "README.md";
pub const DESK: &str = "docs/DESK.md";

/// The profile of a paper's dialogue, and each of its lines with the answer's first line.
pub fn dialogue(paper: &str) -> (String, Vec<(String, String)>) {
    let paper = fs::read_to_string(Path::new(env!("CARGO_MANIFEST_DIR")).join("..").join(paper)).expect("a paper");
    let (_, from_profile) = paper.split_once("```\n$ cat profile\n").expect("the profile is shown");
    let (dialogue, _) = from_profile.split_once("```\n").expect("the dialogue ends");
    let (profile, spoken) = dialogue.split_once("$ desk\n").expect("a call of the desk");
    let turns = spoken.split("> ").skip(1).filter_map(|turn| turn.split_once('\n'));
    (profile.to_string(), turns.map(|(line, answer)| (line.to_string(), answer.lines().next().unwrap_or("").to_string())).collect())
}

/// Compares an answer on the page, words and numbers, with that of the paper.
pub fn answered(browser: &Browser, answer: &str) {
    let (words, numbers) = answer.split_once("  [").expect("numbers in brackets");
    browser.wait_text("#words", words);
    let shown = browser.script("return [...document.querySelectorAll('#numbers dd')].map((own) => own.innerText).join(' ')");
    assert_eq!(shown.text(), numbers.trim_end_matches(']'), "{answer}");
}

/// What the gauge of a count, by its place, shows: percent, use, left, trip, and the width of its bar against the whole.
pub fn gauge(browser: &Browser, count: usize) -> Vec<String> {
    let script = format!(
        "const own = document.querySelectorAll('#rules li')[{count}]; const bar = own.querySelector('.bar');\
         return [own.querySelector('.top i').innerText, own.querySelector('.used').innerText, own.querySelector('.left').innerText,\
         own.querySelector('.trip').innerText, bar.firstChild.style.width]"
    );
    browser.script(&script).list().iter().map(|value| value.text().to_string()).collect()
}
