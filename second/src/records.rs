//! Event records of 12 bytes, most significant bit first.

use crate::fields;
use crate::{is_contracts, is_premium, is_time};

/// The bytes of a record.
pub const BYTES: usize = 12;
/// The refusal of a faulty record.
pub(crate) const FAULTY: u64 = 16;
/// The refusal of too little room.
pub(crate) const SHORT: u64 = 1;

/// The kind of an order.
pub const ORDER: u64 = 0;
/// The kind of an offer.
pub const OFFER: u64 = 1;
/// The kind of a lockout.
pub const LOCKOUT: u64 = 2;

/// The widths of kind, time, root, unit, premium, contracts, reset, level and spare, in bits.
pub(crate) const WIDTHS: [u32; 9] = [2, 27, 6, 2, 27, 20, 2, 1, 9];

/// The fields of one record; a field that the kind doesn't use is 0.
#[derive(Clone, Copy, Debug, Default, PartialEq, Eq)]
pub struct Record {
    pub kind: u64,
    pub time: u64,
    pub root: u64,
    pub unit: u64,
    pub premium: u64,
    pub contracts: u64,
    pub reset: u64,
    pub level: u64,
}

impl Record {
    /// The fields in the order of their widths, the spare bits 0.
    fn fields(&self) -> [u64; WIDTHS.len()] {
        [self.kind, self.time, self.root, self.unit, self.premium, self.contracts, self.reset, self.level, 0]
    }
}

/// The answer of reading: the refusal and the fields, all 0 if refused.
#[derive(Clone, Copy, Debug, PartialEq, Eq)]
pub struct ReadAnswer {
    pub refusal: u64,
    pub record: Record,
}

impl ReadAnswer {
    /// The refusal, then kind, time, root, unit, premium, contracts, reset and level.
    pub fn numbers(&self) -> [u64; 9] {
        let r = &self.record;
        [self.refusal, r.kind, r.time, r.root, r.unit, r.premium, r.contracts, r.reset, r.level]
    }
}

/// The answer of writing or moving: the refusal alone.
#[derive(Clone, Copy, Debug, PartialEq, Eq)]
pub struct WriteAnswer {
    pub refusal: u64,
}

impl WriteAnswer {
    /// The refusal.
    pub fn numbers(&self) -> [u64; 1] {
        [self.refusal]
    }

    /// The refusal in a row of five.
    pub fn row(&self) -> [u64; 5] {
        [self.refusal, 0, 0, 0, 0]
    }
}

/// Reads one record.
pub fn read(bytes: &[u8]) -> ReadAnswer {
    match read_fields(bytes).filter(is_good) {
        Some(record) => ReadAnswer { refusal: 0, record },
        None => ReadAnswer { refusal: FAULTY, record: Record::default() },
    }
}

/// Writes one record into the first twelve bytes of the room.
pub fn write(record: &Record, room: &mut [u8]) -> WriteAnswer {
    if !is_good(record) {
        return WriteAnswer { refusal: FAULTY };
    }
    put(packed(record), room)
}

/// Writes the bytes of a record to the start of the room, if it is not short.
pub(crate) fn put<const N: usize>(bytes: [u8; N], room: &mut [u8]) -> WriteAnswer {
    let Some(start) = room.get_mut(..N) else { return WriteAnswer { refusal: SHORT } };
    start.copy_from_slice(&bytes);
    WriteAnswer { refusal: 0 }
}

/// The fields of twelve bytes whose spare bits are 0.
fn read_fields(bytes: &[u8]) -> Option<Record> {
    if bytes.len() != BYTES {
        return None;
    }
    let [kind, time, root, unit, premium, contracts, reset, level, spare] = fields::parted(bytes, WIDTHS);
    (spare == 0).then_some(Record { kind, time, root, unit, premium, contracts, reset, level })
}

/// The fields side by side in twelve bytes; of a number too wide for its field the low bits stand.
pub(crate) fn packed(record: &Record) -> [u8; BYTES] {
    fields::packed(record.fields(), WIDTHS)
}

/// Does each field fit its width, and does the kind allow it?
fn is_good(record: &Record) -> bool {
    fields::fit(record.fields(), WIDTHS) && is_time(record.time) && allows(record)
}

/// Are the fields that the kind uses in range, and the others 0?
fn allows(r: &Record) -> bool {
    match r.kind {
        ORDER => r.unit == 0 && r.premium == 0 && r.contracts == 0 && r.level == 0,
        OFFER => is_premium(r.premium) && is_contracts(r.contracts) && r.reset == 0 && r.level == 0,
        LOCKOUT => {
            let unused = r.unit == 0 && r.premium == 0 && r.contracts == 0 && r.reset == 0;
            unused && (r.level == 0 || r.root == 0)
        }
        _ => false,
    }
}
