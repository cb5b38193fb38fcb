//! The cases that a test has to come to.

use std::collections::BTreeMap;

/// How often each case came up.
#[derive(Default)]
pub struct Met(BTreeMap<&'static str, u32>);

impl Met {
    pub fn note(&mut self, case: &'static str, is_met: bool) {
        *self.0.entry(case).or_default() += u32::from(is_met);
    }

    /// Each that was asked for came up.
    pub fn all(&self) {
        assert!(self.0.values().all(|&times| times > 0), "{:#?}", self.0);
    }
}
