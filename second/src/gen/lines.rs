//! The lines of a good profile text.

use super::profiles::Style;
use super::random::Random;

/// Between 1 and so many capitals or digits.
pub(super) fn name(random: &mut Random, longest: u64) -> Vec<u8> {
    let length = random.between(1, longest);
    (0..length).map(|_| random.pick(b"ABCDEFGHIJKLMNOPQRSTUVWXYZ0123456789")).collect()
}

/// So many different root names.
pub(super) fn root_names(random: &mut Random, roots: usize) -> Vec<Vec<u8>> {
    let mut names: Vec<Vec<u8>> = Vec::new();
    while names.len() < roots {
        let next = name(random, 6);
        if !names.contains(&next) {
            names.push(next);
        }
    }
    names
}

/// A line of a firm rule.
pub(super) fn firm_line(random: &mut Random, style: Style, firm: &[u8]) -> Vec<u8> {
    let (kind, limit, window) = rule_fields(random, style);
    line(random, [firm, kind, b"", &limit, &window, b"T", b"", b""])
}

/// A line of a root rule, for one unit or all four.
pub(super) fn root_line(random: &mut Random, style: Style, firm: &[u8], root: &[u8], unit: Option<usize>) -> Vec<u8> {
    let (kind, limit, window) = rule_fields(random, style);
    let free: &[u8] = random.pick(&[b"", b"", b"", b"F", b"t", b"TT", b"T\r", b" T", b"\x00\xFF"]);
    let sides: [&[u8]; 4] = [b"C", b"C", b"P", b"P"];
    let months: [&[u8]; 4] = [b"F", b"T", b"F", b"T"];
    let side = unit.map_or(&b""[..], |one| sides[one]);
    let month = unit.map_or(&b""[..], |one| months[one]);
    line(random, [firm, kind, root, &limit, &window, free, side, month])
}

/// A limit type with a limit value and a time limit that go with it.
fn rule_fields(random: &mut Random, style: Style) -> (&'static [u8], Vec<u8>, Vec<u8>) {
    let kind: &[u8] = random.pick(&[b"rate_ntnl", b"rate_vol", b"rate_count", b"abs_ntnl", b"abs_vol", b"abs_count"]);
    let is_rate = kind.starts_with(b"rate");
    let limit = match style {
        Style::Wide => random.pick(&[700, 1_000_000_000, 1_000_000_000]),
        Style::Mixed if kind.ends_with(b"ntnl") => dollars(random),
        Style::Mixed if kind.ends_with(b"vol") => volume(random),
        Style::Mixed => count(random),
    };
    let window = match style {
        _ if !is_rate => free_time_limit(random),
        Style::Wide => random.pick(&[&b"86400000"[..], b"60000", b"600000"]).to_vec(),
        Style::Mixed => time_limit(random),
    };
    (kind, digits(random, limit), window)
}

/// A notional limit in whole dollars.
fn dollars(random: &mut Random) -> u64 {
    let any = random.between(1, 5_000);
    random.pick(&[1, 29, 1_000, 100_000, 10_000_000, 100_000_000_000, any, any])
}

/// A volume limit.
fn volume(random: &mut Random) -> u64 {
    let any = random.between(1, 3_000);
    random.pick(&[1, 5, 100, 500, 1_000, 20_000, 1_000_000_000, any, any])
}

/// A count limit.
fn count(random: &mut Random) -> u64 {
    let any = random.between(1, 60);
    random.pick(&[1, 2, 10, 511, 512, 513, 1_000_000_000, any, any])
}

/// A time limit of a rate rule.
fn time_limit(random: &mut Random) -> Vec<u8> {
    let limits: [&[u8]; 15] = [
        b"",
        b"0",
        b"1",
        b"99",
        b"100",
        b"101",
        b"250",
        b"1000",
        b"1000",
        b"1001",
        b"000000000777",
        b"60000",
        b"3600000",
        b"86399999",
        b"86400000",
    ];
    random.pick(&limits).to_vec()
}

/// A time limit of an absolute rule, which may hold any byte but comma and LF.
fn free_time_limit(random: &mut Random) -> Vec<u8> {
    let limits: [&[u8]; 8] = [b"", b"", b"0", b"250", b"99999999999999", b"none", b"\r", b"\x00\xFF -"];
    random.pick(&limits).to_vec()
}

/// The digits of a number, now and then with leading zeros up to 12 digits.
fn digits(random: &mut Random, number: u64) -> Vec<u8> {
    if random.once_in(8) {
        format!("{number:012}").into_bytes()
    } else {
        number.to_string().into_bytes()
    }
}

/// Joins the fields, most times without the empty ones at the end.
fn line(random: &mut Random, fields: [&[u8]; 8]) -> Vec<u8> {
    let mut length = 8;
    if !random.once_in(3) {
        while length > 4 && fields[length - 1].is_empty() {
            length -= 1;
        }
    }
    fields[..length].join(&b',')
}
