//! The words after away, back and close, made into events.

use crate::typed::names::{unit, Names};
use crate::typed::topics::{AWAY_FORM, BACK_FORM, CLOSE_FORM};
use crate::words::{self, shortened};
use mbrumzheg::{Closing, Event, Identity, Report, Sending};

impl Names<'_> {
    /// The sending that words ask for.
    pub fn away(&self, typed: &[String]) -> Result<Event, String> {
        let [time, root, call_put, month, premium, contracts, identity, reports] = typed else {
            return Err(format!("an order is sent away by eight words, not {}; type {AWAY_FORM}", typed.len()));
        };
        Ok(Event::Send(Sending {
            time: self.time(time)?,
            root: self.root(root)?,
            unit: unit(call_put, month, AWAY_FORM)?,
            premium: words::read_premium(premium)?,
            contracts: words::read_contracts(contracts)?,
            identity: read_identity(identity)?,
            reports: reports.parse().map_err(|_| format!("'{}' is no number of reports; type 1 to 16", shortened(reports)))?,
        }))
    }

    /// The report that words ask for.
    pub fn back(&self, typed: &[String]) -> Result<Event, String> {
        let [time, identity, contracts] = typed else { return Err(format!("what came back? type {BACK_FORM}")) };
        let (time, identity) = (self.time(time)?, read_identity(identity)?);
        Ok(Event::Report(Report { time, identity, contracts: words::read_contracts(contracts)? }))
    }

    /// The closing that words ask for.
    pub fn close(&self, typed: &[String]) -> Result<Event, String> {
        let [time, identity] = typed else { return Err(format!("close what? type {CLOSE_FORM}")) };
        Ok(Event::Close(Closing { time: self.time(time)?, identity: read_identity(identity)? }))
    }
}

fn read_identity(word: &str) -> Result<Identity, String> {
    word.parse().map_err(|_| format!("'{}' is no identity; type a number from 0 to 65535", shortened(word)))
}
