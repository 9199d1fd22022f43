//! Fields side by side in bytes, most significant bit first, by the list of their widths in bits.

/// The fields of bytes that the widths fill.
pub(crate) fn parted<const N: usize>(bytes: &[u8], widths: [u32; N]) -> [u64; N] {
    let whole = bytes.iter().fold(0u128, |number, byte| number << 8 | u128::from(*byte));
    let mut left = 8 * bytes.len() as u32;
    widths.map(|width| {
        left -= width;
        (whole >> left) as u64 & largest(width)
    })
}

/// The fields side by side in bytes that the widths fill; of a number too wide for its field the low bits stand.
pub(crate) fn packed<const N: usize, const BYTES: usize>(fields: [u64; N], widths: [u32; N]) -> [u8; BYTES] {
    let joined = |whole: u128, (field, width): (u64, u32)| whole << width | u128::from(field & largest(width));
    let whole = fields.into_iter().zip(widths).fold(0, joined).to_be_bytes();
    std::array::from_fn(|place| whole[whole.len() - BYTES + place])
}

/// Is no number too wide for its field?
pub(crate) fn fit<const N: usize>(fields: [u64; N], widths: [u32; N]) -> bool {
    fields.into_iter().zip(widths).all(|(field, width)| field <= largest(width))
}

/// The largest number of a field below 64 bits.
fn largest(width: u32) -> u64 {
    (1 << width) - 1
}
