//! The functions of `include/tuormik.h` over slices: each returns 0, a refusal's number or 255, as it does for C; those of the CRC return
//! its value.
//!
//! Slices give what no callee can examine: pointers that are not null and aligned, and lent memory that does not overlap.
#![allow(clippy::too_many_arguments)]

use std::convert::identity;

include!("../functions.rs");

/// The functions as C declares them, and each over slices.
macro_rules! declare {
    ($(
        $(#[$doc:meta])*
        fn $name:ident($($p:ident: $(&[$read:ident])? $(&mut [$written:ident])? $($number:ident)?),* $(,)?) -> $answer:ident;
    )*) => {
        mod ffi {
            extern "C" {
                $(
                    #[link_name = concat!("tuormik_", stringify!($name))]
                    pub fn $name($($($p: *const $read, _: usize,)? $($p: *mut $written, _: usize,)? $($p: $number,)?)*) -> $answer;
                )*
            }
        }

        $(
            $(#[$doc])*
            pub fn $name($($p: $(&[$read])? $(&mut [$written])? $($number)?),*) -> $answer {
                // SAFETY: each pointer and length are those of a slice, and a slice lent to be written is lent to nobody else.
                unsafe {
                    ffi::$name($(
                        $(<[$read]>::as_ptr($p), $p.len(),)?
                        $(<[$written]>::as_mut_ptr($p), $p.len(),)?
                        $(identity::<$number>($p),)?
                    )*)
                }
            }
        )*
    };
}

functions!(declare);
