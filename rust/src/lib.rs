//! A risk unit for order gateways: it arms from a member's profile, takes the orders and offered fills of one firm during one
//! trading day, and cuts each fill to what the member's rules allow. The work is done by a static library whose every function
//! is proved to meet its contract; this crate puts types around it.
//!
//! **Check the armed mark before you pass the first order.** Here the types check it: a [`Unit`] is `Unarmed` until
//! [`arm`](Unit::arm) has accepted a profile, only a `Unit<_, Armed>` takes orders and offers, [`clear`](Unit::clear) takes
//! them away again, and memory that already holds a state passes the library's own check in [`Unit::adopt`].
//!
//! ```
//! use mbrumzheg::{Answer, Contracts, Offer, Premium, Reset, Time, Unit, UnitOfRoot, Verdict};
//!
//! let mut unit = Unit::new().arm("ABCD,abs_vol,XYZ,1000,0").map_err(|refused| refused.why)?;
//! let root = unit.root_named("XYZ").expect("the profile has it");
//! let at_seven_dollars = |ms, contracts| -> Result<Offer, mbrumzheg::Refusal> {
//!     Ok(Offer {
//!         time: Time::from_ms(ms)?,
//!         root,
//!         unit: UnitOfRoot::CallsFront,
//!         premium: Premium::from_ten_thousandths(70_000)?,
//!         contracts: Contracts::new(contracts)?,
//!     })
//! };
//!
//! let first = unit.offer(at_seven_dollars(0, 950)?)?;
//! assert_eq!((first.grant, first.root_trip), (950, false));
//!
//! // 50 are left of 1,000, so 200 are cut to 50 and the root is locked
//! let second = unit.offer(at_seven_dollars(10, 200)?)?;
//! assert_eq!(second, Answer { verdict: Verdict::Free, grant: 50, root_trip: true, firm_trip: false });
//!
//! let verdict = unit.order(Time::from_ms(20)?, root, Reset::None)?;
//! assert_eq!(verdict, Verdict::RootLocked);
//! assert_eq!(unit.order(Time::from_ms(30)?, root, Reset::Symbol)?, Verdict::Free);
//! # Ok::<(), Box<dyn std::error::Error>>(())
//! ```
//!
//! A unit may stand on memory of its own or on lent memory, of [`SIZE`] numbers or more:
//!
//! ```
//! use mbrumzheg::{Unit, SIZE};
//! let mut lent = [u64::MAX; SIZE];
//! let unit = Unit::cleared(&mut lent[..]).unwrap();
//! let unit = unit.arm("ABCD,rate_count,,10,1000,T").unwrap();
//! assert_eq!(unit.firm().as_str(), "ABCD");
//! ```
//!
//! Every number goes in and comes out as a `u64`. With the feature `std`, which is on unless it is turned off, records can be written to anything
//! that takes bytes; with `alloc`, which `std` brings, units can have memory of their own, and a profile is written back to a
//! string; without both the crate is `no_std`, and units stand on lent memory.

#![no_std]

#[cfg(feature = "alloc")]
extern crate alloc;
#[cfg(feature = "std")]
extern crate std;

/// The examples of the paper beside this crate are run with its tests.
#[cfg(doctest)]
#[doc = include_str!("../README.md")]
struct Paper;

mod account;
mod accounted;
mod away;
mod event;
mod memory;
mod place;
mod profile;
pub mod raw;
mod record;
mod refusal;
mod refused;
mod rule;
mod stretch;
mod time;
mod unit;
mod values;
mod view;
mod words;

pub use account::{Account, Column, Figures};
pub use away::{Closing, Identity, Report, Reports, Sending};
pub use event::{Answer, Event, Offer};
pub use memory::Memory;
pub use profile::PROFILE_MOST;
pub use raw::{ACCOUNT_SIZE, SIZE};
pub use record::{narrow, widen, RECORD16_SIZE, RECORD_SIZE};
pub use refusal::Refusal;
pub use refused::{ArmRefusal, Refused, RoomRefusal};
pub use rule::{Measure, Rule, Scope};
#[cfg(feature = "std")]
pub use stretch::{Record16Writer, RecordWriter};
pub use stretch::{Records, Records16};
pub use time::Time;
pub use unit::{Adopted, Armed, Status, Unarmed, Unit};
pub use values::{Contracts, Level, Premium, Reset, Root, UnitOfRoot, Verdict, VerdictText};
pub use view::{Marks, Name};
pub use words::ParseError;
