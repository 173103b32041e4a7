//! How often each outcome came, over all texts and over those with capitals.

use std::collections::BTreeMap;

use super::capitals::has_capitals;

/// Counts of outcomes.
#[derive(Clone, Debug, Default)]
pub struct Spread {
    /// Over all texts.
    pub all: BTreeMap<String, usize>,
    /// Over the texts with capitals.
    pub capitals: BTreeMap<String, usize>,
}

impl Spread {
    /// Counts the outcome of a text.
    pub fn add(&mut self, outcome: &str, text: &[u8]) {
        *self.all.entry(outcome.to_string()).or_default() += 1;
        if has_capitals(text) {
            *self.capitals.entry(outcome.to_string()).or_default() += 1;
        }
    }

    /// Did the outcome come so often in all, and half as often in texts with capitals?
    pub fn is_often(&self, outcome: &str, least: usize) -> bool {
        let count = |counts: &BTreeMap<String, usize>| counts.get(outcome).copied().unwrap_or(0);
        count(&self.all) >= least && 2 * count(&self.capitals) >= least
    }
}
