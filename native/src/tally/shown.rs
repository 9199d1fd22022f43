//! What came up, in words, and what did not.

use std::fmt;

use super::groups::WANTED;
use super::Tally;

/// The refusals of calls on memory and of Text; 16 and 20 are for records alone.
const REFUSALS: [usize; 19] = [1, 2, 3, 4, 5, 6, 7, 8, 9, 10, 11, 12, 13, 14, 15, 17, 18, 19, 21];

impl Tally {
    /// What has to come up and did not.
    pub fn missing(&self) -> Vec<String> {
        let refusals = REFUSALS.into_iter().filter(|refusal| self.refusals[*refusal] == 0).map(|refusal| format!("refusal {refusal}"));
        let rows = WANTED.iter().zip(&self.seen);
        let names = rows.flat_map(|((group, names), seen)| names.iter().zip(seen).map(move |(name, count)| (group, name, count)));
        let names = names.filter(|(_, _, count)| **count == 0).map(|(group, name, _)| format!("{group} {name}"));
        let others = [(self.full_logs, "a full log"), (self.listed, "a list of events beside an account")];
        let others = others.into_iter().filter(|(count, _)| *count == 0).map(|(_, name)| name.into());
        refusals.chain(names).chain(others).collect()
    }
}

impl fmt::Display for Tally {
    fn fmt(&self, f: &mut fmt::Formatter) -> fmt::Result {
        write!(f, "refusals:")?;
        [0].into_iter().chain(REFUSALS).try_for_each(|refusal| write!(f, " {refusal}={}", self.refusals[refusal]))?;
        for ((group, names), seen) in WANTED.iter().zip(&self.seen) {
            let counts: Vec<String> = names.iter().zip(seen).map(|(name, count)| format!("{name} {count}")).collect();
            write!(f, "\n{group}: {}", counts.join(", "))?;
        }
        write!(f, "\nfills that left a full log: {}", self.full_logs)?;
        write!(f, "\nevents of lists from which figures were computed: {}", self.listed)
    }
}
