//! Event records of 16 bytes, most significant bit first, with their times in microseconds.

use crate::fields;
use crate::records::{put, WriteAnswer, FAULTY};
pub use crate::records::{LOCKOUT, OFFER, ORDER};
use crate::unit::MOST_REPORTS;
use crate::{is_contracts, is_premium, LAST_TIME};

/// The bytes of a record.
pub const BYTES: usize = 16;
/// The microseconds of a millisecond.
pub const MILLISECOND: u64 = 1_000;
/// The last microsecond of the day.
pub const LAST_MICROSECOND: u64 = MILLISECOND * LAST_TIME + (MILLISECOND - 1);
/// The last reset that a record can have.
pub const LAST_RESET: u64 = 6;

/// The kind of a sending away.
pub const SENDING: u64 = 3;
/// The kind of a report from an away market.
pub const REPORT: u64 = 4;
/// The kind of a closing.
pub const CLOSING: u64 = 5;

/// The widths of kind, time, root, unit, premium, contracts, reset, level, identity, reports and spare, in bits.
pub(crate) const WIDTHS: [u32; 11] = [4, 37, 6, 2, 27, 20, 4, 1, 16, 5, 6];

/// The fields of one record; a field that the kind doesn't use is 0.
#[derive(Clone, Copy, Debug, Default, PartialEq, Eq)]
pub struct Record16 {
    pub kind: u64,
    /// Microseconds of the day.
    pub time: u64,
    pub root: u64,
    pub unit: u64,
    pub premium: u64,
    pub contracts: u64,
    pub reset: u64,
    pub level: u64,
    pub identity: u64,
    pub reports: u64,
}

impl Record16 {
    /// The fields in the order of their widths, the spare bits 0.
    fn fields(&self) -> [u64; WIDTHS.len()] {
        let Record16 { kind, time, root, unit, premium, contracts, reset, level, identity, reports } = *self;
        [kind, time, root, unit, premium, contracts, reset, level, identity, reports, 0]
    }

    /// The record with 0 in the fields that its kind uses; a firm's lockout doesn't use its root.
    fn unused(&self) -> Record16 {
        let rest = Record16 { kind: 0, time: 0, ..*self };
        match self.kind {
            ORDER => Record16 { root: 0, reset: 0, ..rest },
            OFFER => Record16 { root: 0, unit: 0, premium: 0, contracts: 0, ..rest },
            LOCKOUT if self.level == 0 => Record16 { root: 0, ..rest },
            LOCKOUT => Record16 { level: 0, ..rest },
            SENDING => Record16 { root: 0, unit: 0, premium: 0, contracts: 0, identity: 0, reports: 0, ..rest },
            REPORT => Record16 { identity: 0, contracts: 0, ..rest },
            _ => Record16 { identity: 0, ..rest },
        }
    }
}

/// The answer of reading: the refusal and the fields, all 0 if refused.
#[derive(Clone, Copy, Debug, PartialEq, Eq)]
pub struct ReadAnswer16 {
    pub refusal: u64,
    pub record: Record16,
}

impl ReadAnswer16 {
    /// The refusal, then the ten fields, then 0 in two places that no request has taken yet.
    pub fn numbers(&self) -> [u64; 13] {
        let [kind, time, root, unit, premium, contracts, reset, level, identity, reports, _] = self.record.fields();
        [self.refusal, kind, time, root, unit, premium, contracts, reset, level, identity, reports, 0, 0]
    }
}

/// Reads one record.
pub fn read(bytes: &[u8]) -> ReadAnswer16 {
    match read_fields(bytes).filter(is_good) {
        Some(record) => ReadAnswer16 { refusal: 0, record },
        None => ReadAnswer16 { refusal: FAULTY, record: Record16::default() },
    }
}

/// Writes one record into the first sixteen bytes of the room.
pub fn write(record: &Record16, room: &mut [u8]) -> WriteAnswer {
    if !is_good(record) {
        return WriteAnswer { refusal: FAULTY };
    }
    put(packed(record), room)
}

/// The fields of sixteen bytes whose spare bits are 0.
fn read_fields(bytes: &[u8]) -> Option<Record16> {
    if bytes.len() != BYTES {
        return None;
    }
    let [kind, time, root, unit, premium, contracts, reset, level, identity, reports, spare] = fields::parted(bytes, WIDTHS);
    (spare == 0).then_some(Record16 { kind, time, root, unit, premium, contracts, reset, level, identity, reports })
}

/// The fields side by side in sixteen bytes; of a number too wide for its field the low bits stand.
pub(crate) fn packed(record: &Record16) -> [u8; BYTES] {
    fields::packed(record.fields(), WIDTHS)
}

/// Is the kind known, does each field fit its width, are those that the kind uses in range, and the others 0?
fn is_good(record: &Record16) -> bool {
    let fits = fields::fit(record.fields(), WIDTHS) && record.kind <= CLOSING;
    fits && in_range(record) && record.unused() == Record16::default()
}

/// Are the fields that the kind uses in range?
fn in_range(r: &Record16) -> bool {
    let has_premium = matches!(r.kind, OFFER | SENDING);
    let has_contracts = has_premium || r.kind == REPORT;
    let time = r.time <= LAST_MICROSECOND;
    let amounts = (!has_premium || is_premium(r.premium)) && (!has_contracts || is_contracts(r.contracts));
    let reset = r.kind != ORDER || r.reset <= LAST_RESET;
    let reports = r.kind != SENDING || (1..=MOST_REPORTS).contains(&r.reports);
    time && amounts && reset && reports
}
