//! The operators of nodes: which sort each gives, and which operands it takes.

#[derive(Clone, Copy, Debug, PartialEq, Eq)]
pub enum Sort {
    Number,
    Truth,
}

pub const CONSTANT: u8 = 1;
pub const VARIABLE_VALUE: u8 = 2;
pub const SUM: u8 = 3;
pub const DIFFERENCE: u8 = 4;
pub const PRODUCT: u8 = 5;
pub const QUOTIENT: u8 = 6;
pub const REMAINDER: u8 = 7;
pub const CHOICE: u8 = 8;
pub const EQUAL: u8 = 16;
pub const LESS: u8 = 17;
pub const AT_MOST: u8 = 18;
pub const NOT: u8 = 19;
pub const AND: u8 = 20;
pub const OR: u8 = 21;

/// What an operator gives and the sorts of its node operands, in places 2-3, 4-5, 6-7.
#[derive(Clone, Copy, Debug)]
pub struct Shape {
    pub gives: Sort,
    pub operands: &'static [Sort],
}

/// The shape of a known operator. A constant and a variable have no node operands.
pub fn shape(operator: u8) -> Option<Shape> {
    use Sort::{Number, Truth};
    let (gives, operands): (Sort, &'static [Sort]) = match operator {
        CONSTANT | VARIABLE_VALUE => (Number, &[]),
        SUM | DIFFERENCE | PRODUCT | QUOTIENT | REMAINDER => (Number, &[Number, Number]),
        CHOICE => (Number, &[Truth, Number, Number]),
        EQUAL | LESS | AT_MOST => (Truth, &[Number, Number]),
        NOT => (Truth, &[Truth]),
        AND | OR => (Truth, &[Truth, Truth]),
        _ => return None,
    };
    Some(Shape { gives, operands })
}
