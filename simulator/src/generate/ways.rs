//! Ways to make one input, each with the numbers by which the input may be refused.

use crate::random::Random;
use crate::refusals::Refusal;

pub struct Way {
    pub name: &'static str,
    /// 0 where it may be accepted. Room is not thought of.
    pub numbers: &'static [Refusal],
    pub make: fn(&mut Random) -> Vec<u8>,
}

/// A name, the numbers, how to make one.
macro_rules! ways {
    ($($name:literal $numbers:expr, $make:expr;)*) => {
        &[$($crate::generate::ways::Way { name: $name, numbers: &$numbers, make: $make }),*]
    };
}
pub(crate) use ways;

/// Makes one until there is one.
pub fn insist<T>(random: &mut Random, make: impl Fn(&mut Random) -> Option<T>) -> T {
    loop {
        if let Some(made) = make(random) {
            return made;
        }
    }
}
