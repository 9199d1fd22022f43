//! What typed words are read against: the names of a profile and the time of a clock.

use crate::profile::Profile;
use crate::session::sitting::Sitting;
use crate::words::{self, listed, shortened};
use mbrumzheg::{Root, Time, UnitOfRoot};

/// What words are read against: the names of the profile and the time of the clock.
#[derive(Clone, Copy)]
pub struct Names<'a> {
    /// The profile that the state was armed from.
    pub profile: &'a Profile,
    /// The state's clock.
    pub clock: Time,
}

impl Names<'_> {
    /// The names and the clock of a sitting.
    pub fn of(sitting: &Sitting) -> Names<'_> {
        Names { profile: &sitting.profile, clock: sitting.clock() }
    }

    /// The first and last time of a stretch, in milliseconds.
    pub fn stretch(&self, from: &str, to: &str) -> Result<(u64, u64), String> {
        let (from, to) = (self.time(from)?.ms(), self.time(to)?.ms());
        if from < to {
            Ok((from, to))
        } else {
            Err("the stretch ends before it begins; type report FILE from an earlier TIME to a later TIME".to_string())
        }
    }

    /// The time that a word names.
    pub fn time(&self, word: &str) -> Result<Time, String> {
        if word.len() > 40 {
            return Err(format!("'{}' is no time; type {}", shortened(word), words::TIME_FORMS));
        }
        words::read_time(word, self.clock)
    }

    /// The root of a name, small letters taken as capitals.
    pub fn root(&self, word: &str) -> Result<Root, String> {
        let wanted = word.to_ascii_uppercase();
        let roots = &self.profile.roots;
        let number = roots.iter().position(|name| *name == wanted);
        number.and_then(|number| Root::new(number as u64).ok()).ok_or_else(|| match roots.as_slice() {
            [] => "this profile has firm rules alone and names no root, so orders and offers are refused with 13; type lock firm, \
                   remaining or status"
                .to_string(),
            _ if wanted == "FIRM" => "the profile has no root 'FIRM'; for the whole firm type firm in small letters".to_string(),
            _ => format!("the profile has no root '{}'; its roots are {}", shortened(word), listed(roots)),
        })
    }
}

/// The unit that two words name, or what to type.
pub fn unit(call_put: &str, month: &str, form: &str) -> Result<UnitOfRoot, String> {
    let (call_put, month) = (call_put.to_ascii_lowercase(), month.to_ascii_lowercase());
    let call = match call_put.as_str() {
        "call" | "calls" => true,
        "put" | "puts" => false,
        _ => return Err(format!("'{}' is neither call nor put; type {form}", shortened(&call_put))),
    };
    match (call, month.as_str()) {
        (true, "front") => Ok(UnitOfRoot::CallsFront),
        (true, "trailing") => Ok(UnitOfRoot::CallsTrailing),
        (false, "front") => Ok(UnitOfRoot::PutsFront),
        (false, "trailing") => Ok(UnitOfRoot::PutsTrailing),
        _ => Err(format!("'{}' is neither front nor trailing; type {form}", shortened(&month))),
    }
}
