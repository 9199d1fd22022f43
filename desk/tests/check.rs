//! What is said of a profile beside the library's answer belongs to that answer, and says the cause.
mod common;
use common::{profile, Dice};
use desk::explain;
use desk::explain::check::check;
use mbrumzheg::{ArmRefusal, Unit};

fn refusal(text: &[u8]) -> Option<ArmRefusal> {
    Unit::new().arm(text).err().map(|refused| refused.why)
}

/// Every explanation of a text belongs to the library's answer: no fault in a line that it takes, and in the line that it refuses, with its
/// number, at least one, and none of a lower number.
fn agrees(text: &[u8]) -> Option<u64> {
    let shown = || String::from_utf8_lossy(text).into_owned();
    let lines = explain::lines(text).len();
    let Some(why) = refusal(text) else {
        assert!((1..=lines).all(|line| explain::faults(text, line).is_empty()), "{:?}", shown());
        let said = check("profile", text).expect("what the library takes is good");
        let armed = Unit::new().arm(text).expect("accepted");
        assert_eq!(said.matches("  rule ").count() as u64, armed.rule_count(), "{:?}", shown());
        return None;
    };
    let said = check("profile", text).expect_err("what the library refuses is not good");
    assert!(said.contains(&format!("[refused {} {}]", why.refusal.number(), why.line.unwrap_or(0))), "{said}");
    let Some(line) = why.line else { return Some(why.refusal.number()) };
    assert!((1..line as usize).all(|before| explain::faults(text, before).is_empty()), "{why} {:?}", shown());
    let found = explain::faults(text, line as usize);
    let lowest = found.iter().map(|fault| fault.refusal).min();
    assert_eq!(lowest, Some(why.refusal), "{why} {:?} {found:?}", shown());
    let content = explain::lines(text)[line as usize - 1];
    for fault in explain::of_refusal(text, why) {
        assert!(fault.span.start <= fault.span.end && fault.span.end <= content.len(), "{fault:?}");
        assert!(!fault.words.is_empty());
    }
    let marks = said.lines().filter(|line| line.trim_start_matches([' ', '|']).starts_with('^')).count();
    assert!(marks >= 1, "{said}");
    let of_line = said.lines().skip(1).take_while(|line| !line.starts_with("profile arms"));
    assert!(of_line.clone().all(|line| line.chars().count() <= 80), "{said}");
    assert!(of_line.clone().count() >= 3, "the line, a mark and words: {said}");
    Some(why.refusal.number())
}

/// A good profile with a few bytes changed, put in or taken out.
fn mutated(dice: &mut Dice) -> Vec<u8> {
    let mut text = profile(dice).into_bytes();
    for _ in 0..1 + dice.below(3) {
        let at = dice.below(text.len() as u64 + 1) as usize;
        let byte = dice.pick(b",,,\n\n\r TCPFAa09$.-\"\t_\x00\xEF\xFF9999");
        match dice.below(4) {
            0 if at < text.len() => text[at] = byte,
            1 if at < text.len() => drop(text.remove(at)),
            _ => text.insert(at, byte),
        }
    }
    text
}

#[test]
fn explanations_never_contradict_the_library() {
    let mut by_number = [0; 17];
    for seed in 0..20_000 {
        let text = mutated(&mut Dice::new(seed));
        by_number[agrees(&text).unwrap_or(0) as usize] += 1;
    }
    for number in [0, 6, 7, 8, 9, 10] {
        assert!(by_number[number] > 20, "{by_number:?}: too few of {number}");
    }
}

const LIMITS: [&str; 11] =
    ["0", "1000000001", "100000000000", "100000000001", "1000000000000", "0000000000001", "$5", "", "1.5", "-1", "1\r"];
const TAILS: [&str; 10] = [",T", ",T", ",T\r", ",t", ",,C", ",,,F", ",T,C,F", ",,c,F", ",,C,F,", ",1000,,"];

/// One of the good ones, or now and then another.
fn piece(dice: &mut Dice, good: &[&'static str], odd: &[&'static str]) -> &'static str {
    if dice.below(6) == 0 {
        dice.pick(odd)
    } else {
        dice.pick(good)
    }
}

/// Fields that stand near the bounds, put together at random.
#[test]
fn explanations_agree_on_lines_made_of_pieces() {
    let mut by_number = [0; 17];
    for seed in 0..20_000 {
        let dice = &mut Dice::new(seed);
        let mut text = String::new();
        for _ in 0..1 + dice.below(3) {
            let firm = piece(dice, &["ABCD"], &["abcd", "ABCDE", "", "XY", "XY", "\u{FEFF}ABCD", " ABCD"]);
            let kind = piece(dice, &["abs_vol", "rate_vol", "abs_ntnl", "rate_count"], &["ABS_VOL", "abs_volume", "vol", "", "rate_ntnl "]);
            let root = piece(dice, &["XYZ", "QQQ", "ABCDEF"], &["", "", "ABCDEFG", "xyz", "É"]);
            let limit = piece(dice, &["1", "1000", "1000000000", "000000000001"], &LIMITS);
            let time = piece(dice, &["", "1000", "86400000", "0"], &["86400001", "000", "1s", "9999999999999", "\r"]);
            let tail = piece(dice, &["", ",", ",,C,F", ",,P,T"], &TAILS);
            text.push_str(&format!("{firm},{kind},{root},{limit},{time}{tail}"));
            text.push_str(piece(dice, &["\n"], &["\r\n", "\n\n", ""]));
        }
        by_number[agrees(text.as_bytes()).unwrap_or(0) as usize] += 1;
    }
    for number in [0, 6, 7, 8, 9, 10] {
        assert!(by_number[number] > 20, "{by_number:?}: too few of {number}");
    }
}

#[test]
fn profiles_that_are_too_long_are_explained() {
    let rules = |n: usize, root: &dyn Fn(usize) -> String| -> String {
        (0..n).map(|i| format!("ABCD,abs_vol,{},5,,{}\n", root(i), if root(i).is_empty() { "T" } else { "" })).collect()
    };
    let cases = [
        (rules(7, &|_| "XYZ".to_string()), "lines 1, 2, 3, 4, 5, 6"),
        (rules(11, &|_| String::new()), "10 rules of the firm are the most, and they stand in lines 1, 2, 3,"),
        (rules(65, &|i| format!("R{i}")), "R64 would be the 65th root"),
        (rules(257, &|i| format!("R{}", i / 5)), "256 rules before this line"),
        (rules(6, &|_| "XYZ".to_string()) + "ABCD,abs_vol,XYZ,5,,,P,T\n", "XYZ put trailing has them"),
        ("ABCD,abs_vol,XYZ,5,,,P,F\n".repeat(6) + "ABCD,abs_vol,XYZ,5\n", "XYZ put front has them in lines 1, 2,"),
    ];
    for (text, wanted) in cases {
        assert_eq!(agrees(text.as_bytes()), Some(11), "{text}");
        let said = check("profile", text.as_bytes()).expect_err("too many").replace("\n", " ");
        let said: Vec<&str> = said.split_whitespace().filter(|word| *word != "|").collect();
        assert!(said.join(" ").contains(wanted), "{said:?}");
    }
    assert_eq!(agrees(b""), Some(5));
    assert_eq!(agrees(&[b'A'; 65_537]), Some(5));
    assert!(check("profile", b"").expect_err("empty").contains("there is nothing in it"));
    assert!(check("profile", &[b'A'; 65_537]).expect_err("long").contains("it is too long"));
}

/// The further lines that are named are those that the library refuses, one after the other, when they are taken out.
#[test]
fn further_lines_are_judged_by_the_library() {
    let text =
        "ABCD,abs_vol,XYZ,0\nABCD,abs_vol,XYZ,5\nABCD,abs_volume,XYZ,5\nABCE,abs_vol,XYZ,5\n\nABCD,abs_vol,,5\nABCD,abs_vol,XYZ,5,,,C\nX";
    let said = check("profile", text.as_bytes()).expect_err("refused");
    let named: Vec<&str> =
        said.lines().filter(|line| line.contains("refused with")).map(|line| line.split(':').next().unwrap_or("")).collect();
    let then = |line: u32, number: u32| format!("line {line} would then be refused with {number}");
    let wanted = ["refused with 8 at line 1".to_string(), then(3, 6), then(4, 7), then(5, 6), then(6, 9), then(7, 10)];
    assert_eq!(named, wanted, "{said}");
    assert!(said.ends_with("\n  and more\nprofile arms no unit  [refused 8 1]"), "{said}");
    // taking out what is named leaves what the library takes
    let mut several = 0;
    for seed in 0..3_000 {
        let text = mutated(&mut Dice::new(seed));
        let Some(why) = refusal(&text) else { continue };
        let further = explain::further(&text, why);
        if why.line.is_none() || why.refusal.number() == 11 || further.len() > 4 {
            continue;
        }
        let number = |said: &String| said.split(' ').nth(1).and_then(|word| word.parse::<usize>().ok());
        let out: Vec<usize> = why.line.map(|line| line as usize).into_iter().chain(further.iter().filter_map(number)).collect();
        let kept = explain::lines(&text).into_iter().enumerate().filter(|(place, _)| !out.contains(&(place + 1)));
        let rest: Vec<u8> = kept.flat_map(|(_, line)| [line, b"\n"].concat()).collect();
        let is_good = rest.is_empty() || refusal(&rest).is_none_or(|why| why.refusal.number() == 11);
        assert!(is_good, "{}", String::from_utf8_lossy(&text));
        several += usize::from(out.len() > 1);
    }
    assert!(several > 100, "{several} had several faulty lines");
}

/// A text, the marks under its faulty line from the line's first column on, and a part of the words.
const FAULTS: [(&str, &str, &str); 35] = [
    ("Firm,Limit type,Root,Limit value\nABCD,abs_vol,XYZ,5", "^^^^^^^^^^^^^^^^^^^^^^^^^^^^^^^^", "a heading?"),
    ("ABCD,abs_volume,XYZ,1000", "     ^^^^^^^^^^", "not known; the nearest is abs_vol"),
    ("ABCD,ABS_VOL,XYZ,1000", "     ^^^^^^^", "limit types are in small letters; write abs_vol"),
    ("ABCD,abs_vol ,XYZ,1000", "     ^^^^^^^^", "a blank stands beside the limit type"),
    ("ABCD,volume,XYZ,1000", "     ^^^^^^", "the types are rate_ntnl"),
    ("ABCD,,XYZ,1000", "     ^", "the limit type is missing"),
    ("abcd,abs_vol,XYZ,1000", "^^^^", "small letters in the firm; write ABCD"),
    ("ABCD,abs_vol,xyz,1000", "             ^^^", "small letters in the root; write XYZ"),
    (" ABCD,abs_vol,XYZ,1000", "^", "a blank stands before the firm"),
    ("ABCD,abs_vol,XYZ ,1000", "                ^", "a blank stands after the root"),
    ("ABCD,abs_vol,X Z,1000", "              ^", "a blank stands inside the root"),
    ("ABCD,abs_vol,XYZ,1000\r\nABCD,abs_vol,XYZ,1000", "                     ^^^^", "the limit ends with CR"),
    ("\u{FEFF}ABCD,abs_vol,XYZ,1000", "^^^^^", "byte order mark (BOM) stands in the firm"),
    ("ABCD,abs_ntnl,XYZ,$1000", "                  ^", "a $ stands in the limit"),
    ("ABCD,abs_ntnl,XYZ,10.50", "                    ^", "a point stands in the limit"),
    ("ABCD,abs_vol,XYZ,-5", "                 ^", "a sign stands in the limit"),
    ("ABCD,abs_vol,XYZ,\"1000\"", "                 ^", "a quotation mark stands in the limit"),
    ("ABCD,abs_vol,XYZ,", "                 ^", "the limit is missing"),
    ("ABCD,abs_vol,XYZ,1234567890123", "                 ^^^^^^^^^^^^^", "the limit has 13 digits, and 12 are the most"),
    ("ABCD,rate_vol,XYZ,5,1s", "                     ^", "letters in the time limit; it takes digits alone; it is in milliseconds"),
    ("ABCDE,abs_vol,XYZ,5", "^^^^^", "the firm has 5 characters, and 4 are the most"),
    ("ABCD,abs_vol,ABCDEFG,5", "             ^^^^^^^", "the root has 7 characters, and 6 are the most"),
    ("ABCD,abs_vol,XYZ", "^^^^^^^^^^^^^^^^", "3 fields, where a rule has 4 to 8"),
    ("ABCD;abs_vol;XYZ;5", "^^^^^^^^^^^^^^^^^^", "commas part them, and nothing else"),
    ("# a comment", "^^^^^^^^^^^", "a profile has no comments"),
    ("\nABCD,abs_vol,XYZ,5", "^", "the line is empty"),
    ("ABCD,rate_vol,XYZ,1,000,1000,,C,F", "                  ^^^^^", "a comma inside a number? then write 1000"),
    ("ABCD,abs_vol,XYZ,5,,,C,F,", "                        ^", "9 fields, and 8 are the most"),
    ("ABCD,abs_vol,XYZ,5,,,c,F", "                     ^", "a small letter; write C"),
    ("ABCD,abs_vol,XYZ,5,,,CALL,F", "                     ^^^^", "C for calls, P for puts, or nothing"),
    ("ABCD,abs_vol,XYZ,0", "                 ^", "a limit of 0; the least is 1"),
    ("ABCD,rate_vol,XYZ,5,86400001", "                    ^^^^^^^^", "a time limit of 86,400,001 ms; the most is 86,400,000"),
    ("ABCD,abs_vol,,5", "             ^", "no root and no T"),
    ("ABCD,abs_vol,,5,,T\r\nABCD,abs_vol,XYZ,5", "                 ^^^^^", "T and then CR"),
    ("ABCD,abs_vol,XYZ,5,,,C", "                      ^", "the call/put is set and the month is not"),
];

#[test]
fn faults_are_named_and_marked() {
    for (text, marks, words) in FAULTS {
        assert!(agrees(text.as_bytes()).is_some(), "{text:?} is refused");
        let said = check("profile", text.as_bytes()).expect_err("refused");
        let below: Vec<&str> = said.lines().filter_map(|line| line.strip_prefix("    | ")).collect();
        assert_eq!(below.first().copied(), Some(marks), "{said}");
        assert!(below.join(" ").contains(words), "{said}");
    }
}

#[test]
fn what_may_not_be_meant_is_warned_of() {
    let cases = [
        ("ABCD,abs_vol,XYZ,1,000", "the limit is 1: an absolute rule has no time limit", Some("then write 1000")),
        ("ABCD,abs_vol,XYZ,1,000", "at most 1 contract in the day", None),
        ("ABCD,abs_ntnl,XYZ,20,000,000", "the firm level is not T", Some("then write 20000")),
        ("ABCD,abs_vol,XYZ,5,60000", "the limit is 5: an absolute rule has no time limit", None),
        ("ABCD,rate_vol,XYZ,5", "no time limit, so the window is 100 ms", None),
        ("ABCD,rate_vol,XYZ,5,50", "a time limit of 50 ms, so the window is 100 ms", None),
        ("ABCD,rate_vol,XYZ,1,000", "so the window is 100 ms", Some("then write 1000")),
        ("ABCD,abs_vol,XYZ,5,,N", "the firm level is not T, so it means nothing", None),
        ("ABCD,abs_vol,XYZ,5,\r\n", "CR ends this line", None),
    ];
    for (text, words, more) in cases {
        assert_eq!(agrees(text.as_bytes()), None, "{text:?} is accepted");
        let said = check("profile", text.as_bytes()).expect("accepted");
        let below = said.replace("\n    | ", " ");
        assert!(below.contains(words) && more.is_none_or(|more| below.contains(more)), "{said}");
    }
    for quiet in ["ABCD,abs_vol,XYZ,5", "ABCD,abs_vol,XYZ,1000,0", "ABCD,rate_vol,XYZ,5,1000,,C,F\n", "ABCD,abs_vol,,50000,,T"] {
        assert_eq!(explain::warnings(quiet.as_bytes()), [], "{quiet}");
    }
}

#[test]
fn the_check_in_the_paper_on_the_desk_is_true() {
    let paper = include_str!("../../docs/DESK.md");
    let (_, from_profile) = paper.split_once("```\n$ cat limits\n").expect("a profile");
    let (profile, after) = from_profile.split_once("$ desk check limits\n").expect("a call");
    let (said, _) = after.split_once("\n```\n").expect("the block ends");
    assert_eq!(check("limits", profile.as_bytes()).as_deref(), Ok(said));
}
