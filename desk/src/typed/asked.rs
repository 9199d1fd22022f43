//! The words after offer, order and lock, made into events with the profile's names and the state's clock.

use crate::typed::command::Command;
use crate::typed::names::{unit, Names};
use crate::typed::topics::{LOCK_FORM, OFFER_FORM, ORDER_FORM};
use crate::words::{self, shortened};
use mbrumzheg::{Event, Level, Offer, Reset};

impl Names<'_> {
    /// The event that a command asks for; none for a command that asks for another thing.
    pub fn event(&self, command: &Command) -> Option<Result<Event, String>> {
        match command {
            Command::Offer(words) => Some(self.offer(words)),
            Command::Order(words) => Some(self.order(words)),
            Command::Lock(words) => Some(self.lockout(words)),
            Command::Away(words) => Some(self.away(words)),
            Command::Back(words) => Some(self.back(words)),
            Command::Close(words) => Some(self.close(words)),
            _ => None,
        }
    }

    /// The offer that words ask for.
    pub fn offer(&self, typed: &[String]) -> Result<Event, String> {
        let [time, root, call_put, month, premium, contracts] = typed else {
            return Err(format!("an offer takes six words, not {}; type {OFFER_FORM}", typed.len()));
        };
        Ok(Event::Offer(Offer {
            time: self.time(time)?,
            root: self.root(root)?,
            unit: unit(call_put, month, OFFER_FORM)?,
            premium: words::read_premium(premium)?,
            contracts: words::read_contracts(contracts)?,
        }))
    }

    /// The order that words ask for.
    pub fn order(&self, typed: &[String]) -> Result<Event, String> {
        let (time, root, reset) = match typed {
            [time, root] => (time, root, Reset::None),
            [time, root, word, reset] if word.eq_ignore_ascii_case("reset") => (time, root, read_reset(reset)?),
            _ => return Err(format!("that is no order; type {ORDER_FORM}")),
        };
        Ok(Event::Order { time: self.time(time)?, root: self.root(root)?, reset })
    }

    /// The lockout that words ask for.
    pub fn lockout(&self, typed: &[String]) -> Result<Event, String> {
        let (time, what) = match typed {
            [what] => (self.clock, what),
            [time, what] => (self.time(time)?, what),
            _ => return Err(format!("lock what? type {LOCK_FORM}")),
        };
        let level = if what == "firm" { Level::Firm } else { Level::Root(self.root(what)?) };
        Ok(Event::Lockout { time, level })
    }
}

fn read_reset(word: &str) -> Result<Reset, String> {
    word.to_ascii_lowercase().parse().map_err(|_| format!("'{}' is no reset; type {ORDER_FORM}", shortened(word)))
}
