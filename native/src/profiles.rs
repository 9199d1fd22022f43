//! Profile texts in which several faults meet, so that the first faulty line and the lowest of its numbers have to be found.

use second::gen::Random;

/// What each field may hold: how many of the first are good, and all of them.
const FIELDS: [(usize, &[&str]); 8] = [
    (1, &["A", "B", "", "a", "ABCDE", "9"]),
    (6, &["rate_ntnl", "rate_vol", "rate_count", "abs_ntnl", "abs_vol", "abs_count", "", "rate", "abs_volx", "ABS_VOL"]),
    (3, &["Q", "", "R0", "ABCDEF", "q", "ABCDEFG", "Q "]),
    (
        3,
        &[
            "1",
            "5",
            "1000000000",
            "100000000000",
            "0",
            "1000000001",
            "100000000001",
            "999999999999",
            "",
            "x",
            "0000000000001",
            "000000000001",
        ],
    ),
    (4, &["", "0", "100", "86400000", "86400001", "999999999999", "x", "0000000000100", "000086400000", "-1"]),
    (2, &["", "T", "t", "T\r", "TT"]),
    (3, &["", "C", "P", "c", "CP", "F"]),
    (3, &["", "F", "T", "f", "T\r", "C"]),
];

/// One to four lines, at times after so many that one more may be too many.
pub fn clashing(random: &mut Random) -> Vec<u8> {
    let mut text = String::new();
    let (count, tail): (usize, &str) =
        random.pick(&[(0, ""), (0, ""), (0, ""), (0, ""), (10, ",T"), (6, ""), (6, ",,C,F"), (64, ""), (256, "")]);
    for place in 0..count - usize::from(count > 0 && random.once_in(2)) {
        let root = match count {
            10 => String::new(),
            6 => "Q".into(),
            _ => format!("R{}", place % 64),
        };
        text += &format!("A,abs_vol,{root},5,{tail}\n");
    }
    for _ in 0..random.between(1, 4) {
        text += &line(random);
        text.push('\n');
    }
    if random.once_in(2) {
        text.pop();
    }
    text.into_bytes()
}

/// A line whose fields are good or bad each on its own, at times with a field too few or too many.
fn line(random: &mut Random) -> String {
    let bad_in = random.pick(&[1_000_000, 12, 4]);
    let mut field = |(good, all): (usize, &[&'static str])| {
        let choices = if random.once_in(bad_in) { all } else { &all[..good] };
        random.pick(choices)
    };
    let mut fields: Vec<&str> = FIELDS.into_iter().map(&mut field).collect();
    if random.once_in(3) {
        (fields[6], fields[7]) = ("", "");
    }
    if random.once_in(2) {
        fields[5] = if fields[2].is_empty() { "T" } else { "" };
    }
    let length = random.pick(&[8, 8, 8, 8, 8, 7, 6, 5, 4, 3, 9]);
    fields.resize(length, "");
    fields.join(",")
}
