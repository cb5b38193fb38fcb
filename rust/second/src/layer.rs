//! The same functions of two implementations, side by side.

use crate::plain;
use tuormik::calls;

include!("../../functions.rs");

macro_rules! layers {
    ($($(#[$doc:meta])* fn $name:ident($($p:ident: $t:ty),* $(,)?) -> $answer:ty;)*) => {
        /// An implementation of `include/tuormik.h` over slices.
        #[derive(Clone, Copy)]
        pub struct Layer {
            /// What it is called in messages.
            pub name: &'static str,
            $(
                #[doc = concat!("`tuormik_", stringify!($name), "`.")]
                pub $name: fn($($t),*) -> $answer,
            )*
        }

        /// The proved library.
        pub static PROVED: Layer = Layer { name: "proved", $($name: calls::$name),* };

        /// The plain implementation.
        pub static PLAIN: Layer = Layer { name: "plain", $($name: plain::$name),* };
    };
}

functions!(layers);
