//! The active rules as profile text again: first how long it is, then line by line into the room.

use super::map::*;
use super::{armed, state};
use crate::Row;

pub fn profile(m: &[u64], room: &mut [u8]) -> Row {
    let sound = state(m).and_then(|m| armed(m).map(|_| m));
    let (refusal, size) = match sound {
        Ok(m) => written(m, room),
        Err(refusal) => (refusal, 0),
    };
    [refusal, size as u64, 0, 0, 0]
}

/// Writes the text of a sound state if the room holds it; the refusal, and how long the text is.
fn written(m: &State, room: &mut [u8]) -> (u64, usize) {
    let firm = name(m[FIRM]);
    let size = rules(m).map(|rule| firm.length + Parts::new(m, &rule).size()).sum();
    if size > room.len() {
        return (1, size);
    }
    let (mut line, mut at) = (Line { bytes: [0; 64], length: 0 }, 0);
    for rule in rules(m) {
        line.length = 0;
        line.put(&firm);
        Parts::new(m, &rule).put(&mut line);
        room[at..][..line.length].copy_from_slice(&line.bytes[..line.length]);
        at += line.length;
    }
    (0, size)
}

/// The rules of a sound state.
fn rules(m: &State) -> impl Iterator<Item = Rule> + '_ {
    (0..m[RULE_COUNT] as usize).map(|place| Rule::at(m, place))
}

/// Some bytes at the front of a fixed width, which is copied faster than a length that is not known.
struct Piece<const WIDTH: usize> {
    bytes: [u8; WIDTH],
    length: usize,
}

impl<const WIDTH: usize> Piece<WIDTH> {
    const fn new(text: &[u8]) -> Piece<WIDTH> {
        let (mut bytes, mut at) = ([0; WIDTH], 0);
        while at < text.len() {
            bytes[at] = text[at];
            at += 1;
        }
        Piece { bytes, length: text.len() }
    }
}

/// The name of a number, empty for 0.
fn name(number: u64) -> Piece<8> {
    let unused = number.leading_zeros() / 8;
    Piece { bytes: number.checked_shl(8 * unused).unwrap_or(0).to_be_bytes(), length: 8 - unused as usize }
}

/// The types by measure, first rate and then absolute, between the commas on either side.
static TYPES: [[Piece<12>; 2]; 3] = [
    [Piece::new(b",rate_ntnl,"), Piece::new(b",abs_ntnl,")],
    [Piece::new(b",rate_vol,"), Piece::new(b",abs_vol,")],
    [Piece::new(b",rate_count,"), Piece::new(b",abs_count,")],
];
/// What follows the time limit: of the firm, of a whole root, of each unit.
static FIRM_END: Piece<8> = Piece::new(b",T\n");
static ROOT_END: Piece<8> = Piece::new(b"\n");
static UNIT_ENDS: [Piece<8>; 4] = [Piece::new(b",,C,F\n"), Piece::new(b",,C,T\n"), Piece::new(b",,P,F\n"), Piece::new(b",,P,T\n")];
static COMMA: Piece<1> = Piece::new(b",");

/// The parts of a rule's line after the firm's name.
struct Parts {
    limit_type: &'static Piece<12>,
    root: Piece<8>,
    limit: u64,
    /// 0 for an absolute rule, whose time limit is left empty.
    window: u64,
    end: &'static Piece<8>,
}

impl Parts {
    fn new(m: &State, rule: &Rule) -> Parts {
        let root = m[ROOTS + (rule.second >> 2 & 63) as usize];
        let (root, end) = match rule.second >> 8 & 3 {
            0 => (0, &FIRM_END),
            1 => (root, &ROOT_END),
            _ => (root, &UNIT_ENDS[(rule.second & 3) as usize]),
        };
        let limit_type = &TYPES[rule.measure() as usize][usize::from(rule.is_absolute())];
        Parts { limit_type, root: name(root), limit: rule.first >> 27, window: rule.window(), end }
    }

    /// Does a comma stand before the time limit? Not where the line ends with an absolute rule's empty one.
    fn has_time(&self) -> bool {
        self.window > 0 || self.end.length > ROOT_END.length
    }

    /// How many bytes all parts have.
    fn size(&self) -> usize {
        let time = usize::from(self.has_time()) + if self.window > 0 { digits(self.window) } else { 0 };
        self.limit_type.length + self.root.length + COMMA.length + digits(self.limit) + time + self.end.length
    }

    /// Puts all parts.
    fn put(&self, line: &mut Line) {
        line.put(self.limit_type);
        line.put(&self.root);
        line.put(&COMMA);
        line.put_number(self.limit);
        if self.has_time() {
            line.put(&COMMA);
        }
        if self.window > 0 {
            line.put_number(self.window);
        }
        line.put(self.end);
    }
}

/// How many digits a number above 0 has.
fn digits(number: u64) -> usize {
    1 + number.checked_ilog10().unwrap_or(0) as usize
}

/// A line in the making: it has at most 50 bytes, and a piece may be wider than it is long.
struct Line {
    bytes: [u8; 64],
    length: usize,
}

impl Line {
    fn put<const WIDTH: usize>(&mut self, piece: &Piece<WIDTH>) {
        self.bytes[self.length..][..WIDTH].copy_from_slice(&piece.bytes);
        self.length += piece.length;
    }

    /// Puts the digits of a number above 0, the last two first.
    fn put_number(&mut self, mut number: u64) {
        self.length += digits(number);
        let mut end = self.length;
        while number >= 10 {
            let pair = (number % 100) as u8;
            self.bytes[end - 2..end].copy_from_slice(&[b'0' + pair / 10, b'0' + pair % 10]);
            number /= 100;
            end -= 2;
        }
        if number > 0 {
            self.bytes[end - 1] = b'0' + number as u8;
        }
    }
}
