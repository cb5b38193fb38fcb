//! The proved library and a second implementation of document 01 side by side, and random lists of calls that hold the one against the
//! other.
#![deny(missing_docs)]

pub mod compare;
pub mod layer;

pub use tuormik_plain as plain;
