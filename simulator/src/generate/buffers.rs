//! Lent buffers: exact, one short, long, empty, filled with a pattern that a write would show in.

use crate::random::Random;

pub const FILL: u8 = 0xA5;
pub const FILL_WORD: u32 = 0xA5A5_A5A5;

/// Lengths to lend where `exact` units are needed: exact, one short, longer, empty, any.
pub fn lengths(random: &mut Random, exact: usize) -> Vec<usize> {
    let mut lengths = vec![exact, exact + 1 + random.below(40), 0, random.below(exact + 1)];
    if exact > 0 {
        lengths.push(exact - 1);
    }
    lengths
}

pub fn bytes(length: usize) -> Vec<u8> {
    vec![FILL; length]
}

pub fn words(length: usize) -> Vec<u32> {
    vec![FILL_WORD; length]
}
