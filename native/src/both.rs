//! Both programs, called by lines of a script, for cases by name.

use second::account::FIGURES;

use crate::pair::{as_it_is, Pair};
use crate::scripts::Step;
use crate::Row;

/// Both programs.
pub struct Both(Pair);

impl Default for Both {
    /// Not armed.
    fn default() -> Both {
        Both(Pair::new(as_it_is))
    }
}

impl Both {
    /// Armed from a profile, in which `\n` ends a line.
    pub fn armed(profile: &str) -> Both {
        let mut both = Both::default();
        assert_eq!(both.run(&format!("arm {profile}"))[0], 0, "{profile} is accepted");
        both
    }

    /// The row that both answer.
    pub fn run(&mut self, line: &str) -> Row {
        let step: Step = line.parse().expect("a step");
        self.0.step(&step).unwrap_or_else(|difference| panic!("after {line}: {difference}"))
    }

    /// Both answer so, and 0 in what is left out.
    pub fn says(&mut self, line: &str, row: &[u64]) -> &mut Both {
        let answer = self.run(line);
        assert_eq!(answer[..row.len()], *row, "{line}");
        assert!(answer[row.len()..].iter().all(|number| *number == 0), "{line}: {answer:?}");
        self
    }

    /// Both refuse each line with this number, zeros beside it and not one number of the memory or the account changed.
    pub fn refuses(&mut self, refusal: u64, lines: &[&str]) -> &mut Both {
        let (before, account) = (self.0.second().numbers().to_vec(), self.0.account().0.to_vec());
        lines.iter().for_each(|line| assert_eq!(self.run(line), [refusal, 0, 0, 0, 0], "{line}"));
        assert_eq!(self.0.second().numbers(), before, "refusals change nothing");
        assert_eq!(self.0.account().0, account, "refusals change nothing");
        self
    }

    /// The figures of a row of the account, which is what the list of events and answers makes it.
    pub fn figures(&mut self, row: usize) -> [u64; FIGURES] {
        self.0.finish().unwrap_or_else(|difference| panic!("{difference}"));
        let figures = &self.0.account().0[FIGURES * row..][..FIGURES];
        figures.try_into().expect("eight figures")
    }

    /// Puts a figure into the account of both.
    pub fn put_figure(&mut self, row: usize, figure: usize, number: u64) -> &mut Both {
        self.run(&format!("account-damage {} {number}", FIGURES * row + figure));
        self
    }

    /// So many numbers of the memory from a place on.
    pub fn from(&mut self, place: usize, count: usize) -> Vec<u64> {
        self.0.second().numbers()[place..][..count].to_vec()
    }

    /// Puts a number into the memory of both.
    pub fn put(&mut self, place: usize, number: u64) -> &mut Both {
        self.run(&format!("damage {place} {number}"));
        self
    }
}
