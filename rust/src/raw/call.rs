//! One macro that declares calls of the library and makes the function around each.

/// Makes `pub fn NAME` of the exported `mbrumzheg_NAME`, for each line of a list. A slice goes to the library as its pointer and its length, an array that is
/// taken apart as its numbers, and the row comes last.
macro_rules! calls {
    ($($(#[$words:meta])* fn $name:ident($($arguments:tt)*) -> $row:ty;)*) => {
        $(call!([$(#[$words])*] $name $row, () () () ($($arguments)*,));)*
    };
}

/// One call. Takes its arguments one by one, and keeps of each what the function takes, what the library's declaration has, and what is given to it.
macro_rules! call {
    ($head:tt $name:ident $row:ty, ($($takes:tt)*) ($($has:tt)*) ($($given:tt)*) ($argument:ident: u64, $($rest:tt)*)) => {
        call!($head $name $row, ($($takes)* $argument: u64,) ($($has)* $argument: u64,) ($($given)* $argument,) ($($rest)*));
    };
    ($head:tt $name:ident $row:ty, ($($takes:tt)*) ($($has:tt)*) ($($given:tt)*) ($argument:ident: &mut [$of:ty], $($rest:tt)*)) => {
        call!(
            $head $name $row,
            ($($takes)* $argument: &mut [$of],)
            ($($has)* $argument: *mut $of, _: usize,)
            ($($given)* $argument.as_mut_ptr(), $argument.len(),)
            ($($rest)*)
        );
    };
    ($head:tt $name:ident $row:ty, ($($takes:tt)*) ($($has:tt)*) ($($given:tt)*) ($argument:ident: &[$of:ty], $($rest:tt)*)) => {
        call!(
            $head $name $row,
            ($($takes)* $argument: &[$of],)
            ($($has)* $argument: *const $of, _: usize,)
            ($($given)* $argument.as_ptr(), $argument.len(),)
            ($($rest)*)
        );
    };
    ($head:tt $name:ident $row:ty, ($($takes:tt)*) ($($has:tt)*) ($($given:tt)*) ([$($number:ident),*]: $array:ty, $($rest:tt)*)) => {
        call!(
            $head $name $row,
            ($($takes)* [$($number),*]: $array,)
            ($($has)* $($number: u64,)*)
            ($($given)* $($number,)*)
            ($($rest)*)
        );
    };
    ([$($words:tt)*] $name:ident $row:ty, ($($takes:tt)*) ($($has:tt)*) ($($given:tt)*) ()) => {
        $($words)*
        #[inline]
        #[allow(clippy::too_many_arguments)]
        pub fn $name($($takes)*) -> $row {
            extern "C" {
                #[link_name = concat!("mbrumzheg_", stringify!($name))]
                fn exported($($has)* row: *mut $row);
            }
            let mut row: $row = Default::default();
            // SAFETY: a slice's pointer and length are lent for the call alone, the library keeps neither, two slices that may be written to do not overlap,
            // and the row that the library writes has as many numbers as its type.
            unsafe { exported($($given)* &mut row) };
            row
        }
    };
}

pub(super) use {call, calls};
