//! A side's work, and what it gives.

use std::collections::hash_map::DefaultHasher;
use std::hash::{Hash, Hasher};

pub trait Work {
    /// Makes ready, so that the work can be done again.
    fn reset(&mut self);

    /// Does so many units.
    fn work(&mut self, units: usize);

    /// What the work gave, as one number.
    fn given(&self) -> u64;
}

pub type Side = Box<dyn Work>;

struct Job<S, W> {
    start: S,
    state: S,
    work: W,
}

impl<S: Clone + Hash, W: FnMut(&mut S, usize)> Work for Job<S, W> {
    fn reset(&mut self) {
        self.state.clone_from(&self.start);
    }

    fn work(&mut self, units: usize) {
        (self.work)(&mut self.state, units);
    }

    fn given(&self) -> u64 {
        let mut hasher = DefaultHasher::new();
        self.state.hash(&mut hasher);
        hasher.finish()
    }
}

/// Work on a state, which holds all that it gives.
pub fn side<S: Clone + Hash + 'static>(start: S, work: impl FnMut(&mut S, usize) + 'static) -> Side {
    Box::new(Job { state: start.clone(), start, work })
}
