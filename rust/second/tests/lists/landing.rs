//! The rule of a cut (document 01, "Calls and their sector writes").

/// What becomes of a write.
#[derive(Clone, Copy, PartialEq, Debug)]
pub enum Landing {
    Done,
    Kept,
    Unreadable,
}

/// What becomes of write n where the power fails at write `at`, or at none if that is 0: its effect is 0 old, 1 unreadable, else whole.
pub fn landing(n: u32, at: u32, effect: u32) -> Landing {
    match (at, effect) {
        (0, _) => Landing::Done,
        (at, _) if n < at => Landing::Done,
        (at, _) if n > at => Landing::Kept,
        (_, 0) => Landing::Kept,
        (_, 1) => Landing::Unreadable,
        _ => Landing::Done,
    }
}
