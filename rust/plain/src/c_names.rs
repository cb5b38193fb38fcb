//! The plain implementation under the C names, in the place of the proved library: for trying what stands above the interface where
//! that library is not built.
#![allow(clippy::too_many_arguments)]

use std::slice::{from_raw_parts as lent, from_raw_parts_mut as lent_mut};

include!("../../functions.rs");

macro_rules! export_all {
    ($(
        $(#[$doc:meta])*
        fn $name:ident($($p:ident: $(&[$read:ident])? $(&mut [$written:ident])? $($number:ident)?),* $(,)?) -> $answer:ident;
    )*) => {
        $(export! { $name -> $answer, () () $($p: $(&[$read])? $(&mut [$written])? $($number)?,)* })*
    };
}

/// A function under its C name: its parameters, taken one by one, turn into those of C and into what the plain function is given. The
/// `length` of each step is a name of its own.
macro_rules! export {
    ($name:ident -> $answer:ident, ($($c:tt)*) ($($given:tt)*)) => {
        #[export_name = concat!("tuormik_", stringify!($name))]
        unsafe extern "C" fn $name($($c)*) -> $answer {
            crate::$name($($given)*)
        }
    };
    ($name:ident -> $answer:ident, ($($c:tt)*) ($($given:tt)*) $p:ident: &[$read:ident], $($others:tt)*) => {
        export! { $name -> $answer, ($($c)* $p: *const $read, length: usize,) ($($given)* lent($p, length),) $($others)* }
    };
    ($name:ident -> $answer:ident, ($($c:tt)*) ($($given:tt)*) $p:ident: &mut [$written:ident], $($others:tt)*) => {
        export! { $name -> $answer, ($($c)* $p: *mut $written, length: usize,) ($($given)* lent_mut($p, length),) $($others)* }
    };
    ($name:ident -> $answer:ident, ($($c:tt)*) ($($given:tt)*) $p:ident: $number:ident, $($others:tt)*) => {
        export! { $name -> $answer, ($($c)* $p: $number,) ($($given)* $p,) $($others)* }
    };
}

functions!(export_all);
