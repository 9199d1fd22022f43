//! Calls with one number out of its range.

use super::call::Call;
use super::maker::Maker;
use crate::unit::{Away, LAST_IDENTITY, MOST_REPORTS};
use crate::{LAST_TIME, MOST_CONTRACTS, MOST_PREMIUM};

impl Maker {
    /// The call with one number out of its range.
    pub(super) fn odd(&mut self, call: Call) -> Call {
        let time = self.odd_time();
        match call {
            Call::Order { root, reset, .. } if self.random.once_in(3) => Call::Order { time, root, reset },
            Call::Lockout { level, root, .. } if self.random.once_in(4) => Call::Lockout { time, level, root },
            Call::Offer { root, unit, premium, contracts, .. } if self.random.once_in(5) => {
                Call::Offer { time, root, unit, premium, contracts }
            }
            Call::Send { order, .. } if self.random.once_in(6) => Call::Send { time, order },
            Call::Report { identity, contracts, .. } if self.random.once_in(3) => Call::Report { time, identity, contracts },
            Call::Close { identity, .. } if self.random.once_in(2) => Call::Close { time, identity },
            _ => self.odd_but_time(call),
        }
    }

    /// A number that is no time, or is below the clock.
    pub(super) fn odd_time(&mut self) -> u64 {
        let below = self.clock.wrapping_sub(1);
        self.random.pick(&[below, below, 0, LAST_TIME + 1, 1 << 27, u64::MAX])
    }

    /// The call with one number but its time out of its range.
    fn odd_but_time(&mut self, call: Call) -> Call {
        match call {
            Call::Order { time, root, .. } if self.random.once_in(2) => Call::Order { time, root, reset: self.random.pick(&[7, u64::MAX]) },
            Call::Order { time, reset, .. } => Call::Order { time, root: self.odd_root(), reset },
            Call::Lockout { time, level, root } => self.odd_lockout(time, level, root),
            Call::Offer { time, root, unit, premium, contracts } => {
                let order = Away { identity: 0, root, unit, premium, contracts, reports: 1 };
                let Away { root, unit, premium, contracts, .. } = self.odd_order(order);
                Call::Offer { time, root, unit, premium, contracts }
            }
            Call::Send { time, order } => Call::Send { time, order: self.odd_sending(order) },
            Call::Report { time, contracts, .. } if self.random.once_in(2) => {
                Call::Report { time, identity: self.odd_identity(), contracts }
            }
            Call::Report { time, identity, .. } => Call::Report { time, identity, contracts: self.odd_contracts() },
            Call::Close { time, .. } => Call::Close { time, identity: self.odd_identity() },
            other => other,
        }
    }

    /// A lockout of an unknown root or level, or of the firm with a root.
    fn odd_lockout(&mut self, time: u64, level: u64, root: u64) -> Call {
        let odd_root = self.odd_root();
        match self.random.below(3) {
            0 => Call::Lockout { time, level, root: odd_root },
            1 => Call::Lockout { time, level: 1, root: self.random.pick(&[1, odd_root]) },
            _ => Call::Lockout { time, level: self.random.pick(&[2, u64::MAX]), root },
        }
    }

    /// The sending with one number out of its range.
    fn odd_sending(&mut self, order: Away) -> Away {
        match self.random.below(3) {
            0 => Away { identity: self.odd_identity(), ..order },
            1 => Away { reports: self.random.pick(&[0, MOST_REPORTS + 1, u64::MAX]), ..order },
            _ => self.odd_order(order),
        }
    }

    /// The order with its root, unit, premium or contracts out of range.
    fn odd_order(&mut self, order: Away) -> Away {
        match self.random.below(4) {
            0 => Away { root: self.odd_root(), ..order },
            1 => Away { unit: self.random.pick(&[4, u64::MAX]), ..order },
            2 => Away { premium: self.random.pick(&[0, MOST_PREMIUM + 1, u64::MAX]), ..order },
            _ => Away { contracts: self.odd_contracts(), ..order },
        }
    }

    /// A root that the profile may not have.
    fn odd_root(&mut self) -> u64 {
        let roots = self.roots;
        self.random.pick(&[roots, roots, 63, 64, u64::MAX])
    }

    /// A number that is no identity.
    fn odd_identity(&mut self) -> u64 {
        self.random.pick(&[LAST_IDENTITY + 1, u64::MAX])
    }

    /// A number that is no number of contracts.
    fn odd_contracts(&mut self) -> u64 {
        self.random.pick(&[0, MOST_CONTRACTS + 1, u64::MAX])
    }
}
