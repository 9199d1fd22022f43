//! Orders sent to away markets: their register, and the calls that send, report and close them.

use crate::answers::EventAnswer;
use crate::counting::Offer;
use crate::profile::UNITS;
use crate::state::{Armed, LOG_PLACES, OPEN};
use crate::{is_contracts, is_premium};

/// The places of the register.
pub const REGISTER_PLACES: usize = 64;
/// The largest identity of an order sent away.
pub const LAST_IDENTITY: u64 = 65_535;
/// The most reports that an order sent away may have.
pub const MOST_REPORTS: u64 = 16;

/// An order sent away.
#[derive(Clone, Copy, Debug, PartialEq, Eq)]
pub struct Away {
    pub identity: u64,
    pub root: u64,
    pub unit: u64,
    pub premium: u64,
    /// The contracts that are still open.
    pub contracts: u64,
    /// The reports that are still allowed.
    pub reports: u64,
}

impl Armed {
    /// Sends an order away: it gets the verdict of an order without a reset, and at verdict 0 the register takes it up.
    pub(crate) fn send(&mut self, time: u64, order: Away) -> Result<EventAnswer, u64> {
        self.check_time(time)?;
        if !self.knows_root(order.root) || order.unit >= UNITS || order.identity > LAST_IDENTITY {
            return Err(13);
        }
        if !is_premium(order.premium) || !is_contracts(order.contracts) || !(1..=MOST_REPORTS).contains(&order.reports) {
            return Err(14);
        }
        if self.away.len() >= REGISTER_PLACES {
            return Err(17);
        }
        if self.place_of(order.identity).is_some() {
            return Err(18);
        }
        let verdict = self.verdict(order.root);
        if verdict == OPEN {
            if self.lacks_places(time, order.reports) {
                return Err(15);
            }
            self.away.push(order);
        }
        self.clock = time;
        Ok(EventAnswer::verdict(verdict))
    }

    /// Counts a fill that an away market reports, locked or not.
    pub(crate) fn report(&mut self, time: u64, identity: u64, contracts: u64) -> Result<EventAnswer, u64> {
        self.check_time(time)?;
        if identity > LAST_IDENTITY {
            return Err(13);
        }
        if !is_contracts(contracts) {
            return Err(14);
        }
        let place = self.place_of(identity).ok_or(18u64)?;
        let order = &mut self.away[place];
        if contracts > order.contracts || order.reports == 0 {
            return Err(19);
        }
        order.contracts -= contracts;
        order.reports -= 1;
        let fill = Offer { time, root: order.root, unit: order.unit, premium: order.premium, contracts };
        self.clock = time;
        self.fill(&fill, contracts);
        let tripped = self.tripped_by_report(&fill);
        Ok(self.trip(fill.root, &tripped, contracts))
    }

    /// Takes an order out of the register.
    pub(crate) fn close(&mut self, time: u64, identity: u64) -> Result<EventAnswer, u64> {
        self.check_time(time)?;
        if identity > LAST_IDENTITY {
            return Err(13);
        }
        let place = self.place_of(identity).ok_or(18u64)?;
        self.away.remove(place);
        self.clock = time;
        Ok(EventAnswer::verdict(OPEN))
    }

    /// Where the register has the order of an identity.
    fn place_of(&self, identity: u64) -> Option<usize> {
        self.away.iter().position(|order| order.identity == identity)
    }

    /// Would so many more places pass those of the log? Without a rate rule no place is needed.
    pub(crate) fn lacks_places(&self, time: u64, places: u64) -> bool {
        self.profile.longest_window().is_some() && self.places_used(time) + places > LOG_PLACES as u64
    }

    /// The use at a time: entries inside the longest window, and a place for each report still allowed; 0 without a rate rule.
    pub(crate) fn places_used(&self, time: u64) -> u64 {
        let Some(longest) = self.profile.longest_window() else { return 0 };
        let inside = self.log.iter().filter(|entry| entry.time + longest > time).count() as u64;
        inside + self.away.iter().map(|order| order.reports).sum::<u64>()
    }
}
