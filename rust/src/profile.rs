//! The rules of an armed unit as a profile's text again.

use crate::memory::Memory;
use crate::raw;
#[cfg(feature = "alloc")]
use crate::refusal::Refusal;
use crate::refused::RoomRefusal;
use crate::unit::{accepted, Armed, Unit};
#[cfg(feature = "alloc")]
use alloc::{string::String, vec};

/// The most bytes that a profile written back has: room that is always enough for [`Unit::profile_into`].
pub const PROFILE_MOST: usize = 12_544;

impl<M: Memory> Unit<M, Armed> {
    /// The rules that are active as a profile's text: a line a rule, in their order, with no leading zeros, with windows as they take effect, and
    /// with no empty fields at its end. A unit armed with it has the same rules, roots and numbers.
    ///
    /// ```
    /// # use mbrumzheg::Unit;
    /// let unit = Unit::new().arm("ABCD,rate_vol,XYZ,0500,\nABCD,abs_ntnl,,20000,any,T").unwrap();
    /// assert_eq!(unit.profile().unwrap(), "ABCD,rate_vol,XYZ,500,100\nABCD,abs_ntnl,,20000,,T\n");
    /// ```
    #[cfg(feature = "alloc")]
    pub fn profile(&self) -> Result<String, Refusal> {
        let mut room = vec![0; PROFILE_MOST];
        let [_, size, ..] = accepted(raw::profile(self.memory(), &mut room))?;
        room.truncate(size as usize);
        Ok(String::from_utf8(room).expect("the library writes letters, digits, commas and line ends"))
    }

    /// [`profile`](Unit::profile) to the front of lent room, whose other bytes stay as they are. Room that is short is refused with the size
    /// that is needed; [`PROFILE_MOST`] bytes are always enough.
    ///
    /// ```
    /// # use mbrumzheg::{Refusal, RoomRefusal, Unit, PROFILE_MOST};
    /// let unit = Unit::new().arm("ABCD,abs_vol,XYZ,1000,0").unwrap();
    /// assert_eq!(unit.profile_into(&mut [0; PROFILE_MOST]), Ok("ABCD,abs_vol,XYZ,1000\n"));
    /// assert_eq!(unit.profile_into(&mut [0; 21]), Err(RoomRefusal { refusal: Refusal::NoRoom, needed: Some(22) }));
    /// ```
    pub fn profile_into<'a>(&self, room: &'a mut [u8]) -> Result<&'a str, RoomRefusal> {
        let row = raw::profile(self.memory(), room);
        let size = row[1] as usize;
        match accepted(row) {
            Ok(_) => Ok(core::str::from_utf8(&room[..size]).expect("the library writes letters, digits, commas and line ends")),
            Err(refusal) => Err(RoomRefusal { refusal, needed: (size > 0).then_some(size) }),
        }
    }
}
