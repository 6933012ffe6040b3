//! Node lists for comparing the expression layer by itself: well-formed ones and any bytes.

use super::expressions::{number_size_possible, renumber, Grower, Style, EXTREMES};
use crate::assemble;
use crate::expressions::{decode, Node};
use crate::operators::{shape, REMAINDER};
use crate::random::Random;
use crate::records::{NODE, RECORD_LEN, TWIN_NODE};
use crate::variables::{Values, VARIABLE_PLACES};

/// Shared operands make a list cost more than its nodes; lists above this are not given out.
pub const MOST_STEPS: u64 = 20_000;

pub fn values(random: &mut Random) -> Values {
    let mut values = [0; VARIABLE_PLACES];
    for value in &mut values {
        *value = match random.below(4) {
            0 => random.pick(&[i16::MIN, i16::MAX, -1, 0, 1, 2]),
            1 => random.i16_between(i16::MIN, i16::MAX),
            _ => random.i16_between(-10, 10),
        };
    }
    values
}

/// The bytes of a list of nodes.
pub fn bytes_of(random: &mut Random, nodes: &[Node]) -> Vec<u8> {
    let kind = random.pick(&[NODE, TWIN_NODE]);
    assemble::file(nodes.iter().map(|node| assemble::node(kind, node)))
}

/// One expression or several: operands lower, of the right sorts, each used at most once; up to
/// 1,024 nodes, at times in one deep chain.
pub fn well_formed(random: &mut Random) -> Vec<u8> {
    let total = match random.below(8) {
        0 => 1 + random.below(1_024),
        1 => 1_024,
        2..=4 => 1 + random.below(60),
        _ => 1 + random.below(12),
    };
    let mut nodes: Vec<Node> = Vec::new();
    while nodes.len() < total {
        let left = total - nodes.len();
        let size = if random.chance(1, 2) { left } else { 1 + random.below(left) };
        let style =
            Style { variables: VARIABLE_PLACES, daring: random.chance(3, 4), chain: random.chance(1, 2) };
        let is_truth = size >= 3 && random.chance(1, 2);
        let mut grower = Grower { random, nodes: &mut nodes, style };
        if is_truth {
            grower.truth(size);
        } else {
            grower.number(if number_size_possible(size) { size } else { 1 });
        }
    }
    if random.chance(1, 3) {
        nodes = renumber(random, &nodes).0;
    }
    bytes_of(random, &nodes)
}

/// A chain of divisions and products whose operands are at the ends of the range.
pub fn extreme(random: &mut Random) -> Vec<u8> {
    let mut nodes = vec![assemble::constant(random.pick(&EXTREMES))];
    for _ in 0..random.below(4) {
        let left = u16::try_from(nodes.len() - 1).expect("few nodes");
        nodes.push(assemble::constant(random.pick(&EXTREMES)));
        let operator = random.u8_between(3, REMAINDER);
        nodes.push(assemble::operation(operator, &[left, left + 1]));
    }
    bytes_of(random, &nodes)
}

/// Any bytes of any length, or nodes of any operators and operands, also not lower, shared, of
/// the wrong sort, or past the end; evaluation of every node ends soon.
pub fn arbitrary(random: &mut Random) -> Vec<u8> {
    loop {
        let bytes = match random.below(4) {
            0 => any_bytes(random),
            1 => mutated(random),
            _ => loose(random),
        };
        if steps(&bytes) <= MOST_STEPS {
            return bytes;
        }
    }
}

fn any_bytes(random: &mut Random) -> Vec<u8> {
    let most = random.pick(&[1, 17, 100, 2_000]);
    (0..random.below(most)).map(|_| random.u8()).collect()
}

fn mutated(random: &mut Random) -> Vec<u8> {
    let mut bytes = well_formed(random);
    for _ in 0..1 + random.below(6) {
        let at = random.below(bytes.len());
        bytes[at] = random.pick(&[0, 1, 2, 8, 16, 20, 255]);
    }
    bytes.truncate(bytes.len() - random.below(RECORD_LEN));
    bytes
}

fn loose(random: &mut Random) -> Vec<u8> {
    let most = random.pick(&[4, 20, 100]);
    let count = 1 + random.below(most);
    let near = random.chance(3, 4);
    let nodes: Vec<Node> = (0..count).map(|own| loose_node(random, own, near)).collect();
    let mut bytes = bytes_of(random, &nodes);
    if random.chance(1, 3) {
        bytes.truncate(bytes.len() - random.below(RECORD_LEN));
    }
    bytes
}

fn loose_node(random: &mut Random, own: usize, near: bool) -> Node {
    let operator = match random.below(10) {
        0 => random.u8(),
        1..=5 => random.u8_between(1, 8),
        _ => random.u8_between(16, 21),
    };
    let mut operands = [0; 3];
    for operand in &mut operands {
        *operand = if near { random.index(own + 2) } else { random.u16_between(0, 100) };
    }
    Node { operator, operands, constant: random.pick(&EXTREMES) }
}

/// An upper bound of the steps that evaluating any one node takes.
pub fn steps(bytes: &[u8]) -> u64 {
    let nodes = decode(bytes);
    let mut cost: Vec<u64> = Vec::new();
    for (own, node) in nodes.iter().enumerate() {
        let count = shape(node.operator).map_or(0, |shape| shape.operands.len());
        let lower = node.operands[..count].iter().filter(|operand| usize::from(**operand) < own);
        let sum = lower.map(|operand| cost[usize::from(*operand)]).fold(1, u64::saturating_add);
        cost.push(sum);
    }
    cost.into_iter().max().unwrap_or(0)
}

/// Node numbers to ask for: the last, any, and some past the end.
pub fn node_numbers(random: &mut Random, bytes: &[u8]) -> Vec<u16> {
    let count = bytes.len().div_ceil(RECORD_LEN);
    let last = u16::try_from(count.saturating_sub(1)).expect("few nodes");
    vec![last, random.index(count + 1), last + 1, random.u16_between(0, u16::MAX)]
}
