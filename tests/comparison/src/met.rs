//! How often each thing was met by a test.

use std::collections::BTreeMap;

#[derive(Default, Debug)]
pub struct Met(pub BTreeMap<String, usize>);

impl Met {
    pub fn add(&mut self, what: impl Into<String>) {
        *self.0.entry(what.into()).or_default() += 1;
    }

    pub fn count(&self, what: &str) -> usize {
        self.0.get(what).copied().unwrap_or(0)
    }

    pub fn at_least(&self, least: usize, names: &[&str]) {
        for name in names {
            assert!(self.count(name) >= least, "{name}: {} of {least}\n{:#?}", self.count(name), self.0);
        }
    }
}
