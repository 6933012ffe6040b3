//! How tight operators bind, and how they are spelt.

use crate::operators::*;

/// The operators of two operands by level, loosest first; those of a level group to the left.
pub const LEVELS: [&[u8]; 5] =
    [&[OR], &[AND], &[LESS, AT_MOST, EQUAL], &[SUM, DIFFERENCE], &[PRODUCT, QUOTIENT, REMAINDER]];

/// Of the choice, which binds loosest of all; of the first of `LEVELS`; of `!`; of a variable, a constant and parentheses.
pub const CHOICE_LEVEL: usize = 0;
pub const LOOSEST_LEVEL: usize = 1;
pub const NOT_LEVEL: usize = LOOSEST_LEVEL + LEVELS.len();
pub const LEAF_LEVEL: usize = NOT_LEVEL + 1;

pub fn level(operator: u8) -> usize {
    match operator {
        CHOICE => CHOICE_LEVEL,
        NOT => NOT_LEVEL,
        _ => match LEVELS.iter().position(|operators| operators.contains(&operator)) {
            Some(level) => LOOSEST_LEVEL + level,
            None => LEAF_LEVEL,
        },
    }
}

/// All but the choice, which has two signs. Longer spellings stand before those that they begin with.
pub const SPELLINGS: [(&str, u8); 11] = [
    ("||", OR),
    ("&&", AND),
    ("==", EQUAL),
    ("<=", AT_MOST),
    ("<", LESS),
    ("+", SUM),
    ("-", DIFFERENCE),
    ("*", PRODUCT),
    ("/", QUOTIENT),
    ("%", REMAINDER),
    ("!", NOT),
];

pub fn spelling(operator: u8) -> &'static str {
    SPELLINGS.iter().find(|(_, of)| *of == operator).expect("an operator that is spelt").0
}
