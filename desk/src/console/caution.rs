//! Asking before typed events are lost.

use crate::words::counted;

/// Whether the desk asks before typed events are lost, and whether it just did.
#[derive(Default)]
pub struct Caution {
    asks: bool,
    asked: Option<&'static str>,
    now: Option<&'static str>,
    lost: usize,
}

impl Caution {
    /// Somebody is there to answer.
    pub fn asking() -> Caution {
        Caution { asks: true, ..Caution::default() }
    }

    /// Events are lost: by a word that was asked for, or unasked.
    pub fn lose(&mut self, events: usize) {
        if !self.asks {
            self.lost += events;
        }
    }

    /// How many were lost unasked.
    pub fn lost(&self) -> usize {
        self.lost
    }

    /// A question counts as answered by the line after it alone.
    pub fn next_line(&mut self) {
        self.asked = self.now.take();
    }

    /// What to ask before a command loses so many typed events; nothing where there are none, nobody is there, or the command was just typed.
    pub fn question(&mut self, lost: usize, command: &'static str) -> Option<String> {
        if lost == 0 || !self.asks || self.asked == Some(command) {
            return None;
        }
        self.now = Some(command);
        let (are, them) = if lost == 1 { ("is", "it") } else { ("are", "them") };
        Some(format!("{} {are} not saved: type save FILE, or {command} again to lose {them}", counted(lost, "event")))
    }
}
