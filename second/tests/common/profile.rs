//! Profile texts read with the outcome that a test expects.

use second::profile::{read, Profile};

/// Reads a text that is a good one.
pub fn good(text: &[u8]) -> Profile {
    match read(text) {
        Ok(profile) => profile,
        Err(refusal) => panic!("{:?} got {:?}", String::from_utf8_lossy(text), refusal),
    }
}

/// Asserts the refusal and the line of a text.
pub fn refused(text: &[u8], refusal: u64, line: u64) {
    assert_eq!(read(text), Err((refusal, line)), "{:?}", String::from_utf8_lossy(&text[..text.len().min(200)]));
}
