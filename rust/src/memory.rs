//! What a unit stands on.

#[cfg(feature = "alloc")]
use alloc::{boxed::Box, vec::Vec};

pub(crate) mod sealed {
    /// Memory that nothing else changes while a unit has it.
    pub trait Numbers {
        fn numbers(&self) -> &[u64];
        fn numbers_mut(&mut self) -> &mut [u64];
    }
}

/// What a unit may stand on: lent memory (`&mut [u64]`) or, with the feature `alloc`, memory of its own (`Box<[u64]>`, `Vec<u64>`).
///
/// It is sealed, since what the types say of a unit holds only while nothing else writes to its memory.
pub trait Memory: sealed::Numbers {}

macro_rules! memory {
    ($($name:ty),*) => {$(
        impl sealed::Numbers for $name {
            fn numbers(&self) -> &[u64] {
                self
            }
            fn numbers_mut(&mut self) -> &mut [u64] {
                self
            }
        }
        impl Memory for $name {}
    )*};
}
memory!(&mut [u64]);
#[cfg(feature = "alloc")]
memory!(Box<[u64]>, Vec<u64>);

/// The memory of a unit whose type does not name one: its own, or lent for good where there is no allocator.
#[cfg(feature = "alloc")]
pub type Usual = Box<[u64]>;
/// The memory of a unit whose type does not name one: its own, or lent for good where there is no allocator.
#[cfg(not(feature = "alloc"))]
pub type Usual = &'static mut [u64];
