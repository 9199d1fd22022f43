//! What came up of lengths: of lent memory, and of rooms for a profile out.

use second::lent::Row;

use crate::SIZE;

/// The place of a length in its group.
pub fn lent_place(length: usize) -> usize {
    match length {
        0 | 1 => length,
        length if length + 1 == SIZE => 2,
        length if length < SIZE => 3,
        length => 4 + (length - SIZE).min(2),
    }
}

/// The place of a profile out in its group, by its room and row.
pub fn out_place(room: u64, [refusal, size, ..]: Row) -> usize {
    match refusal {
        0 => usize::from(room > size),
        1 if size == 0 => 4,
        1 => 2 + usize::from(room + 1 < size),
        4 => 5,
        _ => 6,
    }
}
