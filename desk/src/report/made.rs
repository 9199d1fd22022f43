//! What a report was made from, and by what.

use crate::records::sha256;
use crate::session::sitting::Sitting;

/// The version of the desk and of the library that it stands on.
pub const VERSION: &str = include_str!("../../../VERSION").trim_ascii_end();
/// The kit that proved and compiled the library, as it named itself when the desk was built.
pub const KIT: &str = env!("MBRUMZHEG_KIT");

/// What a report was made from, and by what.
pub struct Made {
    /// The profile's file.
    pub profile: String,
    /// The sum of its bytes.
    pub profile_sum: String,
    /// The files that records came from, in order.
    pub records: Vec<String>,
    /// How many events were typed.
    pub typed: usize,
    /// The sum of the file of records or words that was read; of a day at the desk, of its records as save writes them.
    pub records_sum: String,
    /// The version.
    pub version: &'static str,
    /// The kit.
    pub kit: &'static str,
}

impl Made {
    /// From a day at the desk.
    pub fn at_the_desk(sitting: &Sitting) -> Made {
        let sources = &sitting.sources;
        Made {
            profile: sources.profile.clone(),
            profile_sum: sha256::hex(&sitting.profile.text),
            records: sources.replayed.clone(),
            typed: sources.typed,
            records_sum: sitting.day.sum(),
            version: VERSION,
            kit: KIT,
        }
    }
}
