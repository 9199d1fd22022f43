//! The figures of a day.

use crate::session::passed::Passed;
use crate::words::grouped;
use mbrumzheg::{Event, Refusal};

/// The figures of a day.
#[derive(Clone, Debug, Default, PartialEq, Eq)]
pub struct Sums {
    /// Every record, whatever became of it.
    pub records: u64,
    /// Orders, offers and lockouts that were not refused.
    pub orders: u64,
    /// Offers.
    pub offers: u64,
    /// Lockouts by hand.
    pub lockouts: u64,
    /// Contracts offered.
    pub offered: u64,
    /// Contracts granted.
    pub granted: u64,
    /// Premium times contracts of what was granted, in ten-thousandths of a dollar.
    pub notional: u128,
    /// Orders sent away.
    pub sent: u64,
    /// Reports of such orders.
    pub reports: u64,
    /// Contracts that came back with them.
    pub back: u64,
    /// Premium times contracts of what came back, in ten-thousandths of a dollar.
    pub back_notional: u128,
    /// Orders sent away that were closed.
    pub closed: u64,
    /// Offers that passed and were cut.
    pub cuts: u64,
    /// Roots and firms tripped.
    pub trips: u64,
    /// Orders and offers rejected, since a level was locked.
    pub rejected: u64,
    /// Events that the library refused.
    pub refused: u64,
    /// Records that hold no event.
    pub faulty: u64,
}

impl Sums {
    /// Adds a record.
    pub fn take(&mut self, passed: &Passed) {
        self.records += 1;
        let (Some(event), Ok(answer)) = (&passed.event, &passed.answer) else {
            match passed.answer {
                Err(Refusal::FaultyRecord) => self.faulty += 1,
                _ => self.refused += 1,
            }
            return;
        };
        match event {
            Event::Order { .. } => self.orders += 1,
            Event::Lockout { .. } => self.lockouts += 1,
            Event::Offer(offer) => {
                self.offers += 1;
                self.offered += offer.contracts.count();
                self.granted += answer.grant;
                self.notional += u128::from(offer.premium.ten_thousandths()) * u128::from(answer.grant);
            }
            Event::Send(_) => self.sent += u64::from(answer.verdict.passes()),
            Event::Report(_) => {
                let premium = passed.away.map_or(0, |order| order.sent.premium.ten_thousandths());
                self.reports += 1;
                self.back += answer.grant;
                self.back_notional += u128::from(premium) * u128::from(answer.grant);
            }
            Event::Close(_) => self.closed += 1,
        }
        self.cuts += u64::from(passed.is_cut());
        self.trips += u64::from(answer.root_trip) + u64::from(answer.firm_trip);
        self.rejected += u64::from(!answer.verdict.passes());
    }

    /// The sums in words.
    pub fn words(&self) -> String {
        let counted = |n: u64, thing: &str| crate::words::counted(n as usize, thing);
        let mut text = format!(
            "{}: {}, {}, {} rejected, {} refused",
            counted(self.records, "record"),
            counted(self.cuts, "cut"),
            counted(self.trips, "trip"),
            grouped(self.rejected),
            grouped(self.refused)
        );
        if self.reports > 0 {
            text.push_str(&format!(", {} come back from away", counted(self.back, "contract")));
        }
        if self.faulty > 0 {
            text.push_str(&format!(", {} faulty", grouped(self.faulty)));
        }
        text
    }
}
