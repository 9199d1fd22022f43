//! The time of an event.

use crate::refusal::Refusal;

/// A time of the trading day in microseconds, 0 to 86,399,999,999. The rules count in whole milliseconds, so every call goes by [`ms`](Time::ms); the
/// microseconds beyond stand in records alone.
///
/// ```
/// use mbrumzheg::{Refusal, Time};
/// let time = Time::from_us(10_250)?;
/// assert_eq!((time.us(), time.ms(), time.micros()), (10_250, 10, 250));
/// assert_eq!(Time::from_us(86_400_000_000), Err(Refusal::BadTime));
/// # Ok::<(), Refusal>(())
/// ```
#[derive(Clone, Copy, Debug, PartialEq, Eq, Hash, PartialOrd, Ord)]
pub struct Time(u64);

impl Time {
    /// Midnight, where the clock of a newly armed unit stands.
    pub const START: Time = Time(0);
    /// The last microsecond of the day.
    pub const LAST: Time = Time(86_399_999_999);

    /// A time from milliseconds; [`Refusal::BadTime`] beyond the day.
    pub fn from_ms(ms: u64) -> Result<Time, Refusal> {
        Time::from_us(ms.saturating_mul(1_000))
    }

    /// A time from microseconds; [`Refusal::BadTime`] beyond the day.
    pub fn from_us(us: u64) -> Result<Time, Refusal> {
        if us > Time::LAST.us() {
            return Err(Refusal::BadTime);
        }
        Ok(Time(us))
    }

    /// The milliseconds of the day, what is beyond them dropped.
    pub const fn ms(self) -> u64 {
        self.0 / 1_000
    }

    /// The microseconds of the day.
    pub const fn us(self) -> u64 {
        self.0
    }

    /// The microseconds beyond the millisecond, 0 to 999.
    pub const fn micros(self) -> u64 {
        self.0 % 1_000
    }
}
