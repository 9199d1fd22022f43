//! Files that a call names, where - is the standard input.

use crate::files::disk;
use std::io::{self, Read};

/// The bytes of a profile.
pub fn profile(name: &str) -> Result<Vec<u8>, String> {
    if name != "-" {
        return disk::profile(name);
    }
    let mut bytes = Vec::new();
    let read = io::stdin().lock().take(disk::PROFILE_BYTES).read_to_end(&mut bytes);
    read.map(|_| bytes).map_err(|error| format!("the standard input cannot be read ({error})"))
}

/// What to say of a profile that has no byte; nothing for another.
pub fn emptiness(name: &str, text: &[u8]) -> Option<String> {
    text.is_empty().then(|| format!("'{}' is empty, so it has no rule", shown(name)))
}

/// Records from their start, and how many bytes they have, if that is known.
pub fn records(name: &str) -> Result<(Box<dyn Read>, Option<u64>), String> {
    if name != "-" {
        return disk::records(name);
    }
    Ok((Box::new(io::stdin()), None))
}

/// The name as people read it.
pub fn shown(name: &str) -> &str {
    if name == "-" {
        "standard input"
    } else {
        name
    }
}
