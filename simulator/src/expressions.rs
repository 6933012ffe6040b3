//! The one expression layer of both steppers: number and truth evaluation over node records.
//!
//! Evaluation is total. In accepted files every operand is a lower node of the right sort;
//! for other bytes the missing cases are fixed here so that evaluation always ends: a byte past
//! the end reads 0, an operator of the other sort (or unknown) gives 0 or false, a variable of
//! number 64 or more reads 0, and an operand not lower than its own node gives 0 or false
//! without being touched.

use crate::operators::*;
use crate::records::{read_i32, read_u16, whole_records, Record, RECORD_LEN};
use crate::refusals::{Refusal, OUT_OF_RANGE, ZERO_DIVISOR};
use crate::variables::Values;

#[derive(Clone, Copy, Debug, Default, PartialEq, Eq)]
pub struct Node {
    pub operator: u8,
    pub operands: [u16; 3],
    pub constant: i32,
}

impl Node {
    pub fn read(record: &Record) -> Node {
        Node {
            operator: record[1],
            operands: [read_u16(record, 2), read_u16(record, 4), read_u16(record, 6)],
            constant: read_i32(record, 8),
        }
    }
}

/// The nodes of arbitrary bytes; a last part of a record is read as filled up with zeros.
pub fn decode(bytes: &[u8]) -> Vec<Node> {
    let mut nodes: Vec<Node> = whole_records(bytes).iter().map(Node::read).collect();
    let rest = &bytes[nodes.len() * RECORD_LEN..];
    if !rest.is_empty() {
        let mut record = [0; RECORD_LEN];
        record[..rest.len()].copy_from_slice(rest);
        nodes.push(Node::read(&record));
    }
    nodes
}

/// A node's value as a number, from bytes.
pub fn number(nodes: &[u8], variables: &Values, node: u16) -> Result<i32, Refusal> {
    Evaluator { nodes: &decode(nodes), variables }.number(node)
}

/// A node's value as a truth, from bytes.
pub fn truth(nodes: &[u8], variables: &Values, node: u16) -> Result<bool, Refusal> {
    Evaluator { nodes: &decode(nodes), variables }.truth(node)
}

#[derive(Clone, Copy)]
pub struct Evaluator<'a> {
    pub nodes: &'a [Node],
    pub variables: &'a Values,
}

impl Evaluator<'_> {
    pub fn number(&self, at: u16) -> Result<i32, Refusal> {
        let node = self.node(at);
        match node.operator {
            CONSTANT => Ok(node.constant),
            VARIABLE_VALUE => Ok(self.variable(node.operands[0])),
            SUM | DIFFERENCE | PRODUCT | QUOTIENT | REMAINDER => {
                let left = self.number_operand(at, node.operands[0])?;
                let right = self.number_operand(at, node.operands[1])?;
                arithmetic(node.operator, left, right)
            }
            // The truth picks the number worked out; the other is not touched.
            CHOICE if self.truth_operand(at, node.operands[0])? => self.number_operand(at, node.operands[1]),
            CHOICE => self.number_operand(at, node.operands[2]),
            _ => Ok(0),
        }
    }

    pub fn truth(&self, at: u16) -> Result<bool, Refusal> {
        let node = self.node(at);
        match node.operator {
            EQUAL | LESS | AT_MOST => {
                let left = self.number_operand(at, node.operands[0])?;
                let right = self.number_operand(at, node.operands[1])?;
                Ok(comparison(node.operator, left, right))
            }
            NOT => Ok(!self.truth_operand(at, node.operands[0])?),
            // And, or stop at the first operand that decides.
            AND => Ok(self.truth_operand(at, node.operands[0])? && self.truth_operand(at, node.operands[1])?),
            OR => Ok(self.truth_operand(at, node.operands[0])? || self.truth_operand(at, node.operands[1])?),
            _ => Ok(false),
        }
    }

    fn node(&self, at: u16) -> Node {
        self.nodes.get(usize::from(at)).copied().unwrap_or_default()
    }

    fn variable(&self, number: u16) -> i32 {
        self.variables.get(usize::from(number)).copied().map_or(0, i32::from)
    }

    fn number_operand(&self, own: u16, operand: u16) -> Result<i32, Refusal> {
        if operand < own {
            self.number(operand)
        } else {
            Ok(0)
        }
    }

    fn truth_operand(&self, own: u16, operand: u16) -> Result<bool, Refusal> {
        if operand < own {
            self.truth(operand)
        } else {
            Ok(false)
        }
    }
}

fn arithmetic(operator: u8, left: i32, right: i32) -> Result<i32, Refusal> {
    let (a, b) = (i64::from(left), i64::from(right));
    match operator {
        SUM => in_range(a + b),
        DIFFERENCE => in_range(a - b),
        PRODUCT => in_range(a * b),
        QUOTIENT => quotient(a, b),
        _ => remainder(a, b),
    }
}

/// Toward zero: -3 by 2 is -1. Only -2,147,483,648 by -1 leaves the range.
fn quotient(dividend: i64, divisor: i64) -> Result<i32, Refusal> {
    if divisor == 0 {
        return Err(ZERO_DIVISOR);
    }
    in_range(dividend / divisor)
}

/// With the dividend's sign; never out of range.
fn remainder(dividend: i64, divisor: i64) -> Result<i32, Refusal> {
    if divisor == 0 {
        return Err(ZERO_DIVISOR);
    }
    in_range(dividend % divisor)
}

fn in_range(exact: i64) -> Result<i32, Refusal> {
    i32::try_from(exact).map_err(|_| OUT_OF_RANGE)
}

fn comparison(operator: u8, left: i32, right: i32) -> bool {
    match operator {
        EQUAL => left == right,
        LESS => left < right,
        _ => left <= right,
    }
}
