//! The operators of guards: their codes, and how tight they bind.

pub const CONSTANT: u8 = 1;
pub const VARIABLE: u8 = 2;
pub const SUM: u8 = 3;
pub const DIFFERENCE: u8 = 4;
pub const PRODUCT: u8 = 5;
pub const QUOTIENT: u8 = 6;
pub const REMAINDER: u8 = 7;
pub const CHOICE: u8 = 8;
pub const EQUAL: u8 = 16;
pub const LESS: u8 = 17;
pub const AT_MOST: u8 = 18;
pub const NOT: u8 = 19;
pub const AND: u8 = 20;
pub const OR: u8 = 21;

pub const TIGHTEST: u8 = 7;

/// By code: 0 the choice, 1 `||`, 2 `&&`, 3 comparisons, 4 sums, 5 products, 6 `!`, 7 what is no operation.
pub const LEVELS: [u8; 256] = {
    let mut levels = [TIGHTEST; 256];
    levels[CHOICE as usize] = 0;
    levels[OR as usize] = 1;
    levels[AND as usize] = 2;
    levels[EQUAL as usize] = 3;
    levels[LESS as usize] = 3;
    levels[AT_MOST as usize] = 3;
    levels[SUM as usize] = 4;
    levels[DIFFERENCE as usize] = 4;
    levels[PRODUCT as usize] = 5;
    levels[QUOTIENT as usize] = 5;
    levels[REMAINDER as usize] = 5;
    levels[NOT as usize] = 6;
    levels
};
