//! Days of steps, one after another, on both; the first difference ends the run with the shortest script that shows it.

use std::time::{Duration, Instant};

use crate::pair::{first_difference, Pair, Twist};
use crate::scripts::{print, Step};
use crate::shrink::shrink;
use crate::steps::Day;
use crate::tally::Tally;

/// How often a run says how far it is.
const PROGRESS: Duration = Duration::from_secs(10);

/// What ends a run that shows no difference.
#[derive(Clone, Copy)]
pub enum End {
    /// So much time, at the end of a day.
    After(Duration),
    /// So many days: every run of a seed is then the same.
    Days(u64),
}

impl End {
    /// Whether a run ends after so many days, which took so long.
    fn reached(self, days: u64, spent: Duration) -> bool {
        match self {
            End::After(time) => spent >= time,
            End::Days(most) => days >= most,
        }
    }
}

/// What a run saw, and the script of the first difference if there is one.
pub struct Outcome {
    pub days: u64,
    pub tally: Tally,
    pub spent: Duration,
    pub script: Option<Vec<Step>>,
}

/// Compares, until the end, on days whose seeds follow from the first one.
pub fn run(end: End, seed: u64, twist: Twist) -> Outcome {
    let start = Instant::now();
    let (mut tally, mut said) = (Tally::default(), Duration::ZERO);
    for days in 1.. {
        let script = run_day(seed.wrapping_add(days - 1), twist, &mut tally);
        let spent = start.elapsed();
        if script.is_some() || end.reached(days, spent) {
            let script = script.map(|script| shrink(script, |script| first_difference(script, twist).map(|(place, _)| place)));
            return Outcome { days, tally, spent, script };
        }
        if spent - said >= PROGRESS {
            said = spent;
            eprintln!("{}\n{tally}\n", rate(days, &tally, spent));
        }
    }
    unreachable!("days do not run out")
}

/// Runs one day; gives its steps up to a difference, if there is one.
fn run_day(seed: u64, twist: Twist, tally: &mut Tally) -> Option<Vec<Step>> {
    let (mut day, mut pair, mut script) = (Day::new(seed), Pair::new(twist), Vec::new());
    while let Some(step) = day.next(&mut pair) {
        tally.before(&step, &mut pair);
        let row = pair.step(&step);
        script.push(step);
        match (row, script.last()) {
            (Ok(row), Some(step)) => tally.after(step, row, &mut pair),
            _ => return Some(script),
        }
    }
    let finished = pair.finish();
    tally.listed += pair.listed;
    finished.err().map(|_| script)
}

/// How many days and calls there were, and how many calls a second.
pub fn rate(days: u64, tally: &Tally, spent: Duration) -> String {
    let (calls, accounted) = (tally.calls, tally.accounted);
    format!("{days} days, {calls} calls, {accounted} of them accounted, {:.0} a second", calls as f64 / spent.as_secs_f64())
}

/// A script and the difference that it shows, as text that can be run again.
pub fn report(script: &[Step], twist: Twist) -> String {
    match first_difference(script, twist) {
        Some((place, difference)) => format!("{}# {difference}\n", print(&script[..=place])),
        None => format!("{}# no difference\n", print(script)),
    }
}
