//! Damage to profile texts.

use super::random::Random;
use crate::profile::MOST_BYTES;

/// Damages a text once, now and then more than once.
pub(super) fn damage(random: &mut Random, mut text: Vec<u8>) -> Vec<u8> {
    for _ in 0..random.pick(&[1, 1, 1, 1, 2, 3]) {
        text = match random.below(16) {
            0..=1 => damage_byte(random, text),
            2..=4 => damage_field(random, text),
            5..=9 => damage_sense(random, text),
            10 => damage_lines(random, text),
            11..=14 => damage_number_of_rules(random, text),
            _ => damage_length(random, text),
        };
    }
    text
}

/// Changes, drops or adds one byte.
fn damage_byte(random: &mut Random, mut text: Vec<u8>) -> Vec<u8> {
    let any = random.below(256) as u8;
    let byte = random.pick(&[b',', b'\n', b'\r', b' ', b'a', b'Z', b'0', b'9', b'T', b'.', b'-', 0, 255, any]);
    let place = random.below(text.len() as u64 + 1) as usize;
    match random.below(3) {
        0 if place < text.len() => text[place] = byte,
        1 if place < text.len() => {
            text.remove(place);
        }
        _ => text.insert(place, byte),
    }
    text
}

/// Puts other content into one field of one line.
fn damage_field(random: &mut Random, text: Vec<u8>) -> Vec<u8> {
    let mut lines = split(&text, b'\n');
    let place = random.below(lines.len() as u64) as usize;
    let mut fields = split(&lines[place], b',');
    fields.resize(fields.len().max(8), Vec::new());
    let field = random.below(9) as usize;
    let contents: &[&[u8]] = match field {
        0 => &[b"", b"ZZZZ", b"ABCDE", b"abc", b"A B", b"A"],
        1 => &[b"", b"rate_ntrl", b"rate", b"abs_vol ", b"RATE_VOL", b"abs_ntnl", b"rate_count"],
        2 => &[b"", b"ABCDEFG", b"abc", b"X-Y", b"NEWONE", b"\r"],
        3 => &[
            b"",
            b"0",
            b"000000000000",
            b"1000000000",
            b"1000000001",
            b"100000000000",
            b"100000000001",
            b"999999999999",
            b"0000000000001",
            b"1000000000000",
            b"+1",
            b"1.0",
            b" 1",
            b"-1",
        ],
        4 => &[b"", b"86400000", b"86400001", b"999999999999", b"0000000000100", b"1e3", b"\r", b"000086400001"],
        5 => &[b"", b"T", b"T", b"t", b"T\r", b"TT"],
        6 => &[b"", b"C", b"P", b"c", b"CC", b"F", b"\r"],
        7 => &[b"", b"F", b"T", b"f", b"FT", b"C", b"T\r"],
        _ => &[b"", b"x"],
    };
    if field == 8 {
        fields.push(Vec::new());
    }
    let field = field.min(fields.len() - 1);
    fields[field] = random.pick(contents).to_vec();
    lines[place] = fields.join(&b',');
    lines.join(&b'\n')
}

/// Puts well-formed content into one field that may clash with the others or be out of range.
fn damage_sense(random: &mut Random, text: Vec<u8>) -> Vec<u8> {
    let mut lines = split(&text, b'\n');
    lines.retain(|line| !line.is_empty());
    if lines.is_empty() {
        return text;
    }
    let place = random.below(lines.len() as u64) as usize;
    let mut fields = split(&lines[place], b',');
    fields.resize(8, Vec::new());
    let (field, contents): (usize, &[&[u8]]) = match random.below(6) {
        0 => (0, &[b"ZZZZ", b"A", b"0"]),
        1 => (3, &[b"0", b"1000000000", b"1000000001", b"100000000000", b"100000000001", b"999999999999"]),
        2 => (4, &[b"86400000", b"86400001", b"999999999999"]),
        3 => (5, &[b"T", b""]),
        4 => (6, &[b"C", b"P", b""]),
        _ => (7, &[b"F", b"T", b""]),
    };
    fields[field] = random.pick(contents).to_vec();
    lines[place] = fields.join(&b',');
    lines.join(&b'\n')
}

/// Adds an empty line, doubles a line, cuts a line or puts CR before each LF.
fn damage_lines(random: &mut Random, text: Vec<u8>) -> Vec<u8> {
    let mut lines = split(&text, b'\n');
    let place = random.below(lines.len() as u64) as usize;
    match random.below(4) {
        0 => lines.insert(place, Vec::new()),
        1 => lines.insert(place, lines[place].clone()),
        2 => {
            let length = random.below(lines[place].len() as u64 + 1) as usize;
            lines[place].truncate(length);
        }
        _ => lines.iter_mut().for_each(|line| line.push(b'\r')),
    }
    lines.join(&b'\n')
}

/// Adds rules until a number of rules or roots is passed, or just met.
fn damage_number_of_rules(random: &mut Random, text: Vec<u8>) -> Vec<u8> {
    let firm = split(&text, b',').swap_remove(0);
    let mut lines = split(&text, b'\n');
    lines.retain(|line| !line.is_empty());
    let mut add = |root: String, tail: &str| {
        let mut line = firm.clone();
        line.extend_from_slice(format!(",abs_vol,{root},1000,{tail}").as_bytes());
        lines.push(line);
    };
    match random.below(5) {
        0 => (0..random.between(9, 11)).for_each(|_| add(String::new(), "0,T")),
        1 => (0..random.between(5, 7)).for_each(|_| add("FULL".into(), ",,P,F")),
        2 => (0..random.between(60, 65)).for_each(|place| add(format!("R{place}"), "0")),
        3 => (0..random.between(250, 257)).for_each(|place| add(format!("R{}", place % 60), "0")),
        _ => {
            (0..random.between(5, 6)).for_each(|_| add("FULL".into(), ",,C,T"));
            add("FULL".into(), "");
        }
    }
    lines.join(&b'\n')
}

/// Makes the text empty, a lone LF, or about as long as the longest one.
fn damage_length(random: &mut Random, mut text: Vec<u8>) -> Vec<u8> {
    match random.below(4) {
        0 => Vec::new(),
        1 => b"\n".to_vec(),
        _ => {
            let length = MOST_BYTES + random.below(3) as usize;
            while text.last() == Some(&b'\n') {
                text.pop();
            }
            text.resize(length.max(text.len()), b'x');
            text
        }
    }
}

/// The parts between the given bytes.
fn split(text: &[u8], by: u8) -> Vec<Vec<u8>> {
    text.split(|byte| *byte == by).map(<[u8]>::to_vec).collect()
}
