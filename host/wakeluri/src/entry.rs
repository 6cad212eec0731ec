//! The entry points one by one, as they are: bytes and numbers in, a struct of numbers out.
//!
//! These add nothing to what the static library does but that slices make them safe to call. Every call takes any bytes and any
//! numbers: the proved code reads and writes only inside the slices that it is lent. A table is bytes, eight to a number, low
//! byte first, [`ROW_WORDS`] numbers to a row, or of a FASTQ file [`FASTQ_ROW_WORDS`]. The crate's own functions and [`Table`](crate::Table) are more comfortable.

use crate::Bounds;

macro_rules! structs {
    ($($(#[$doc:meta])* struct $name:ident { $($field:ident),* })*) => {$(
        $(#[$doc])*
        #[repr(C)]
        #[derive(Clone, Copy, Debug, Default, Eq, PartialEq)]
        #[non_exhaustive]
        #[allow(missing_docs)]
        pub struct $name {
            pub refusal: u64,
            pub first: u64,
            pub second: u64,
            $(pub $field: u64,)*
        }

        impl $name {
            const NUMBERS: usize = [$(stringify!($field)),*].len();

            /// The refusal and its two numbers, if there is one.
            pub fn no(&self) -> Option<[u64; 3]> {
                (self.refusal != 0).then_some([self.refusal, self.first, self.second])
            }

            /// The numbers behind the refusal's, in their order.
            pub fn numbers(&self) -> [u64; Self::NUMBERS] {
                [$(self.$field),*]
            }
        }
    )*};
}

crate::answers!(structs);

/// The numbers of a row of a table: those of a [`Row`] from `name_start` on.
pub const ROW_WORDS: usize = (size_of::<Row>() - core::mem::offset_of!(Row, name_start)) / size_of::<u64>();

/// The bytes of a row of a table.
pub const ROW_BYTES: usize = ROW_WORDS * size_of::<u64>();

/// The numbers of a row of a table of a FASTQ file: those of a [`Fastq`] from `name_start` on.
pub const FASTQ_ROW_WORDS: usize = (size_of::<Fastq>() - core::mem::offset_of!(Fastq, name_start)) / size_of::<u64>();

impl Fastq {
    /// The numbers of the row, as a table has them.
    pub fn row(&self) -> [u64; FASTQ_ROW_WORDS] {
        let numbers = self.numbers();
        core::array::from_fn(|word| numbers[Self::NUMBERS - FASTQ_ROW_WORDS + word])
    }
}

impl Row {
    /// The numbers of the row, as a table has them.
    pub fn row(&self) -> [u64; ROW_WORDS] {
        let numbers = self.numbers();
        core::array::from_fn(|word| numbers[Self::NUMBERS - ROW_WORDS + word])
    }
}

/// The type of a parameter in Rust.
#[rustfmt::skip]
macro_rules! lent {
    (bytes) => { &[u8] };
    (maybe) => { Option<&[u8]> };
    (output) => { &mut [u8] };
    (table) => { &mut [u8] };
    (fastq_table) => { &mut [u8] };
    (numbers) => { &mut [u64] };
    (number) => { u64 };
    (state) => { Feed };
    (bounds) => { Bounds };
}

/// The call of an entry point: its parameters, one by one, become types and values as C has them.
macro_rules! call {
    ($name:ident $answer:ident [$($type:ty,)*] [$($value:expr,)*]) => {{
        unsafe extern "C" {
            #[link_name = concat!("wakeluri_", stringify!($name))]
            fn entry_point($(_: $type),*) -> $answer;
        }
        // SAFETY: each pointer comes from a slice, with its length; what is written to is lent to this call alone.
        unsafe { entry_point($($value),*) }
    }};
    ($name:ident $answer:ident [$($type:ty,)*] [$($value:expr,)*] $bytes:ident bytes $($rest:ident)*) => {
        call!($name $answer [$($type,)* *const u8, usize,] [$($value,)* $bytes.as_ptr(), $bytes.len(),] $($rest)*)
    };
    ($name:ident $answer:ident [$($type:ty,)*] [$($value:expr,)*] $maybe:ident maybe $($rest:ident)*) => {{
        let bytes = $maybe.unwrap_or_default();
        call!(
            $name $answer [$($type,)* u64, *const u8, usize,]
            [$($value,)* u64::from($maybe.is_some()), bytes.as_ptr(), bytes.len(),]
            $($rest)*
        )
    }};
    ($name:ident $answer:ident [$($type:ty,)*] [$($value:expr,)*] $out:ident output $($rest:ident)*) => {
        call!($name $answer [$($type,)* *mut u8, usize,] [$($value,)* $out.as_mut_ptr(), $out.len(),] $($rest)*)
    };
    ($name:ident $answer:ident [$($type:ty,)*] [$($value:expr,)*] $table:ident table $($rest:ident)*) => {
        call!($name $answer [$($type,)*] [$($value,)*] $table output $($rest)*)
    };
    ($name:ident $answer:ident [$($type:ty,)*] [$($value:expr,)*] $table:ident fastq_table $($rest:ident)*) => {
        call!($name $answer [$($type,)*] [$($value,)*] $table output $($rest)*)
    };
    ($name:ident $answer:ident [$($type:ty,)*] [$($value:expr,)*] $numbers:ident numbers $($rest:ident)*) => {
        call!(
            $name $answer [$($type,)* *mut u64, usize,] [$($value,)* $numbers.as_mut_ptr(), $numbers.len(),] $($rest)*
        )
    };
    ($name:ident $answer:ident [$($type:ty,)*] [$($value:expr,)*] $number:ident number $($rest:ident)*) => {
        call!($name $answer [$($type,)* u64,] [$($value,)* $number,] $($rest)*)
    };
    ($name:ident $answer:ident [$($type:ty,)*] [$($value:expr,)*] $state:ident state $($rest:ident)*) => {
        call!($name $answer [$($type,)* Feed,] [$($value,)* $state,] $($rest)*)
    };
    ($name:ident $answer:ident [$($type:ty,)*] [$($value:expr,)*] $bounds:ident bounds $($rest:ident)*) => {
        call!(
            $name $answer [$($type,)* u64, u64, u64, u64,]
            [
                $($value,)*
                u64::from($bounds.start.is_some()),
                $bounds.start.unwrap_or(0),
                u64::from($bounds.end.is_some()),
                $bounds.end.unwrap_or(0),
            ]
            $($rest)*
        )
    };
}

macro_rules! calls {
    ($($(#[$doc:meta])* fn $name:ident($($parameter:ident: $kind:ident),*) -> $answer:ident;)*) => {$(
        $(#[$doc])*
        #[allow(clippy::too_many_arguments)]
        pub fn $name($($parameter: lent!($kind)),*) -> $answer {
            call!($name $answer [] [] $($parameter $kind)*)
        }
    )*};
}

crate::entry_points!(calls);
