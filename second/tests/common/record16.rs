//! Records of 16 bytes with the outcome that a test expects.

use second::records16::{read, write, Record16, OFFER, REPORT, SENDING};

/// The good record of a kind with nothing in it that may be left out.
pub fn least(kind: u64) -> Record16 {
    let (premium, contracts) = (u64::from([OFFER, SENDING].contains(&kind)), u64::from([OFFER, SENDING, REPORT].contains(&kind)));
    Record16 { kind, premium, contracts, reports: u64::from(kind == SENDING), ..Record16::default() }
}

/// Asserts that the writer refuses with 16 and writes nothing, whichever the room.
pub fn not_written(record: Record16) {
    let mut room = [7; 20];
    assert_eq!(write(&record, &mut room).row(), [16, 0, 0, 0, 0], "{record:?}");
    assert_eq!(room, [7; 20]);
    assert_eq!(write(&record, &mut []).refusal, 16);
}

/// Asserts that the record is written and read back, and gives its bytes.
pub fn both_ways(record: Record16) -> [u8; 16] {
    let mut room = [7; 20];
    assert_eq!(write(&record, &mut room).row(), [0; 5], "{record:?}");
    assert_eq!(room[16..], [7; 4]);
    let answer = read(&room[..16]);
    assert_eq!((answer.refusal, answer.record), (0, record));
    std::array::from_fn(|place| room[place])
}

/// A sending with every field that it uses at its largest.
pub const SENT: Record16 = Record16 {
    kind: SENDING,
    time: 86_399_999_999,
    root: 63,
    unit: 3,
    premium: 100_000_000,
    contracts: 1_000_000,
    reset: 0,
    level: 0,
    identity: 65_535,
    reports: 16,
};
