//! Nodes, decoded: their checks, and what they come to.

use crate::files::{records, span, Found};
use crate::Refusal;

pub const PLACES: usize = 64;
pub type Values = [i16; PLACES];

const RANGE: Refusal = 15;
const DIVISOR: Refusal = 16;

#[derive(Clone, Copy, Default)]
pub struct Node {
    operator: u8,
    operands: [u16; 3],
    constant: i32,
}

/// The nodes, and how often each is an operand. Kept between files, so that reading one allocates nothing.
#[derive(Default)]
pub struct Nodes {
    nodes: Vec<Node>,
    pub uses: Vec<u8>,
    /// Each operand is lower, and of its sort.
    pub ordered: bool,
}

#[derive(Clone, Copy, PartialEq, Eq)]
enum Sort {
    Number,
    Truth,
}

/// Operands, the sort of the first, the sort of the others, the sort given.
#[inline(always)]
fn shape(operator: u8) -> Option<(usize, Sort, Sort, Sort)> {
    use Sort::{Number, Truth};
    match operator {
        1 | 2 => Some((0, Number, Number, Number)),
        3..=7 => Some((2, Number, Number, Number)),
        8 => Some((3, Truth, Number, Number)),
        16..=18 => Some((2, Number, Number, Truth)),
        19 => Some((1, Truth, Truth, Truth)),
        20 | 21 => Some((2, Truth, Truth, Truth)),
        _ => None,
    }
}

/// The named bytes of a node, by its operator.
#[inline(always)]
fn named(operator: u8) -> u128 {
    span(0, 1)
        | match operator {
            1 => span(8, 11),
            2 | 19 => span(2, 3),
            3..=7 | 16..=18 | 20 | 21 => span(2, 5),
            8 => span(2, 7),
            _ => span(2, 11),
        }
}

impl Nodes {
    pub fn read_into(&mut self, section: &[u8], variables: usize) -> Found {
        let count = section.len() / 16;
        let mut found = Found::default();
        self.nodes.clear();
        self.nodes.reserve(count);
        self.uses.clear();
        self.uses.resize(count, 0);
        self.ordered = true;
        for record in records(section) {
            let operator = record.byte(1);
            let operands = [record.u16(2), record.u16(4), record.u16(6)];
            found.stray |= record.strays(named(operator));
            found.broken |= shape(operator).is_none();
            found.dangling |= operator == 2 && usize::from(operands[0]) >= variables;
            found.dangling |= self.use_operands(operator, &operands, count);
            self.nodes.push(Node { operator, operands, constant: record.i32(8) });
        }
        found
    }

    /// Counts the operands of the next node, and finds whether one names no node.
    #[inline(always)]
    fn use_operands(&mut self, operator: u8, operands: &[u16; 3], count: usize) -> bool {
        let Some((places, first, rest, _)) = shape(operator) else {
            return false;
        };
        let mut dangling = false;
        for (place, operand) in operands[..places].iter().enumerate() {
            let operand = usize::from(*operand);
            if operand < self.nodes.len() {
                self.ordered &= self.gives(operand, if place == 0 { first } else { rest });
                self.uses[operand] = self.uses[operand].saturating_add(1);
            } else {
                dangling |= operand >= count;
                self.ordered = false;
            }
        }
        dangling
    }

    pub fn add_use(&mut self, node: u16) {
        let uses = &mut self.uses[usize::from(node)];
        *uses = uses.saturating_add(1);
    }

    pub fn len(&self) -> usize {
        self.nodes.len()
    }

    pub fn is_empty(&self) -> bool {
        self.nodes.is_empty()
    }

    #[inline(always)]
    fn gives(&self, node: usize, sort: Sort) -> bool {
        self.nodes.get(node).and_then(|node| shape(node.operator)).is_some_and(|shape| shape.3 == sort)
    }

    #[inline(always)]
    pub fn is_truth(&self, node: u16) -> bool {
        self.gives(usize::from(node), Sort::Truth)
    }

    #[inline(always)]
    pub fn is_number(&self, node: u16) -> bool {
        self.gives(usize::from(node), Sort::Number)
    }

    #[inline(always)]
    fn at(&self, node: u16) -> &Node {
        &self.nodes[usize::from(node)]
    }

    /// A leaf without a call.
    #[inline(always)]
    fn operand(&self, values: &Values, node: u16) -> Result<i32, Refusal> {
        let at = self.at(node);
        match at.operator {
            1 => Ok(at.constant),
            2 => Ok(i32::from(values[usize::from(at.operands[0]) & (PLACES - 1)])),
            _ => self.number(values, node),
        }
    }

    /// Of an accepted file: operands are lower and of their sorts.
    pub fn number(&self, values: &Values, node: u16) -> Result<i32, Refusal> {
        let at = self.at(node);
        let [a, b, c] = at.operands;
        match at.operator {
            1 => Ok(at.constant),
            2 => Ok(i32::from(values[usize::from(a) & (PLACES - 1)])),
            8 => {
                let picked = if self.truth(values, a)? { b } else { c };
                self.operand(values, picked)
            }
            operator => {
                let left = self.operand(values, a)?;
                let right = self.operand(values, b)?;
                match operator {
                    3 => left.checked_add(right).ok_or(RANGE),
                    4 => left.checked_sub(right).ok_or(RANGE),
                    5 => left.checked_mul(right).ok_or(RANGE),
                    _ if right == 0 => Err(DIVISOR),
                    6 => left.checked_div(right).ok_or(RANGE),
                    _ => Ok(left.wrapping_rem(right)),
                }
            }
        }
    }

    pub fn truth(&self, values: &Values, node: u16) -> Result<bool, Refusal> {
        let at = self.at(node);
        let [a, b, _] = at.operands;
        match at.operator {
            19 => self.truth(values, a).map(|truth| !truth),
            20 => Ok(self.truth(values, a)? && self.truth(values, b)?),
            21 => Ok(self.truth(values, a)? || self.truth(values, b)?),
            operator => {
                let left = self.operand(values, a)?;
                let right = self.operand(values, b)?;
                Ok(match operator {
                    16 => left == right,
                    17 => left < right,
                    _ => left <= right,
                })
            }
        }
    }
}
