//! How far a long run has come, said on standard error where that is a terminal.

use crate::words::grouped;
use std::io::{self, IsTerminal, Write};
use std::time::{Duration, Instant};

/// So many records pass between two looks at the clock.
const STRIDE: u64 = 4_096;

/// What is said of a long run.
pub struct Progress {
    shown: bool,
    total: Option<u64>,
    done: u64,
    next: Instant,
    written: bool,
}

impl Progress {
    /// Of a run over so many records, if that is known.
    pub fn of(total: Option<u64>) -> Progress {
        let next = Instant::now() + Duration::from_millis(300);
        Progress { shown: io::stderr().is_terminal(), total, done: 0, next, written: false }
    }

    /// Another record has passed.
    pub fn step(&mut self) {
        self.done += 1;
        if !self.shown || self.done % STRIDE != 0 || Instant::now() < self.next {
            return;
        }
        self.next = Instant::now() + Duration::from_millis(100);
        self.written = true;
        let of = self.total.map_or_else(String::new, |total| format!(" of {}", grouped(total)));
        // a terminal that is gone needs no word
        let _ = write!(io::stderr(), "\r{}{of} records", grouped(self.done));
    }

    /// Takes what was said away, before a line is printed or the run ends.
    pub fn hide(&mut self) {
        if std::mem::take(&mut self.written) {
            // as above
            let _ = write!(io::stderr(), "\r\x1b[K");
        }
    }
}

impl Drop for Progress {
    fn drop(&mut self) {
        self.hide();
    }
}
