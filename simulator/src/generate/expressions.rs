//! Expressions of an exact number of nodes, appended to a list with operands first.

use crate::assemble::{constant, operation, variable_value};
use crate::expressions::Node;
use crate::node_rules::node_operands;
use crate::operators::*;
use crate::random::Random;
use crate::variables::Variable;

/// Constants at which the ends of 32 bits and the special divisors come up.
pub const EXTREMES: [i32; 12] =
    [i32::MIN, i32::MIN + 1, i32::MAX, i32::MAX - 1, -1, 0, 1, 2, -2, 65_536, -65_536, 46_341];

/// What a generated expression may hold.
#[derive(Clone, Copy)]
pub struct Style {
    /// How many variables it may read.
    pub variables: usize,
    /// Extreme constants and any divisor, so that faults come up.
    pub daring: bool,
    /// Long chains instead of bushy trees.
    pub chain: bool,
}

/// No number has 2 or 4 nodes; a truth has at least 3.
pub fn number_size_possible(size: usize) -> bool {
    size == 1 || size == 3 || size >= 5
}

pub fn truth_size_possible(size: usize) -> bool {
    size >= 3
}

/// Two numbers together have 2, 4, 6 or more nodes.
fn pair_possible(total: usize) -> bool {
    matches!(total, 2 | 4) || total >= 6
}

pub struct Grower<'a> {
    pub random: &'a mut Random,
    pub nodes: &'a mut Vec<Node>,
    pub style: Style,
}

impl Grower<'_> {
    pub fn push(&mut self, node: Node) -> u16 {
        self.nodes.push(node);
        u16::try_from(self.nodes.len() - 1).expect("at most 65,536 nodes")
    }

    /// A number of exactly `size` nodes.
    pub fn number(&mut self, size: usize) -> u16 {
        match size {
            1 => self.leaf(),
            6 => self.choice(size),
            _ if size > 6 && self.random.chance(1, 4) => self.choice(size),
            _ => self.arithmetic(size),
        }
    }

    /// A truth of exactly `size` nodes.
    pub fn truth(&mut self, size: usize) -> u16 {
        let joined = size >= 7;
        match self.random.below(4) {
            0 if size >= 4 => self.not(size),
            1 | 2 if joined => self.junction(size),
            _ if pair_possible(size - 1) => self.comparison(size),
            _ => self.not(size),
        }
    }

    fn leaf(&mut self) -> u16 {
        let style = self.style;
        let node = if style.variables > 0 && self.random.chance(1, 2) {
            variable_value(self.random.index(style.variables))
        } else if style.daring && self.random.chance(2, 3) {
            constant(self.random.pick(&EXTREMES))
        } else {
            self.small_constant()
        };
        self.push(node)
    }

    fn small_constant(&mut self) -> Node {
        let end = self.random.pick(&[1, 3, 10, 100]);
        constant(i32::try_from(self.random.between(-end, end)).expect("small"))
    }

    /// In a style that is not daring, products have leaves and divisors are constants, so that
    /// most expressions do not fault.
    fn arithmetic(&mut self, size: usize) -> u16 {
        let operator = self.random.pick(&[SUM, DIFFERENCE, PRODUCT, QUOTIENT, REMAINDER]);
        if self.style.daring {
            return self.binary(operator, size);
        }
        match operator {
            PRODUCT if size > 3 => self.binary(SUM, size),
            QUOTIENT | REMAINDER if number_size_possible(size - 2) => {
                let dividend = self.number(size - 2);
                let divisor = self.random.pick(&[-7, -2, -1, 1, 2, 3, 10]);
                let divisor = self.push(constant(divisor));
                self.push(operation(operator, &[dividend, divisor]))
            }
            QUOTIENT | REMAINDER => self.binary(DIFFERENCE, size),
            _ => self.binary(operator, size),
        }
    }

    fn binary(&mut self, operator: u8, size: usize) -> u16 {
        let (left, right) = self.pair(size - 1);
        let left = self.number(left);
        let right = self.number(right);
        self.push(operation(operator, &[left, right]))
    }

    fn comparison(&mut self, size: usize) -> u16 {
        let operator = self.random.pick(&[EQUAL, LESS, AT_MOST]);
        self.binary(operator, size)
    }

    fn not(&mut self, size: usize) -> u16 {
        let operand = self.truth(size - 1);
        self.push(operation(NOT, &[operand]))
    }

    fn junction(&mut self, size: usize) -> u16 {
        let operator = self.random.pick(&[AND, OR]);
        let spare = size - 1 - 6;
        let left = 3 + self.share(spare);
        let right = size - 1 - left;
        let left = self.truth(left);
        let right = self.truth(right);
        self.push(operation(operator, &[left, right]))
    }

    fn choice(&mut self, size: usize) -> u16 {
        let total = size - 1;
        let mut numbers = 2 + self.share(total - 5);
        if !pair_possible(numbers) {
            numbers -= 1;
        }
        let (left, right) = self.pair(numbers);
        let truth = self.truth(total - numbers);
        let left = self.number(left);
        let right = self.number(right);
        self.push(operation(CHOICE, &[truth, left, right]))
    }

    /// A part of some spare nodes: none or all of them in a chain.
    fn share(&mut self, spare: usize) -> usize {
        if self.style.chain {
            self.random.pick(&[0, spare])
        } else {
            self.random.below(spare + 1)
        }
    }

    /// Sizes of two numbers that together have `total` nodes.
    fn pair(&mut self, total: usize) -> (usize, usize) {
        let possible = |left: &usize| number_size_possible(*left) && number_size_possible(total - left);
        let mut sizes: Vec<usize> = if self.style.chain {
            [1, 3, total - 1, total.saturating_sub(3)].into_iter().filter(|left| *left < total).collect()
        } else {
            let middle = self.random.below(total);
            (1..total).filter(|left| left.abs_diff(middle) < 4 || *left < 4).collect()
        };
        sizes.retain(possible);
        let left = self.random.pick(&sizes);
        (left, total - left)
    }
}

/// Renumbers nodes at random, keeping operands lower than their nodes. Gives the new list and
/// the new number of each old node.
pub fn renumber(random: &mut Random, nodes: &[Node]) -> (Vec<Node>, Vec<u16>) {
    let mut waiting: Vec<usize> = nodes.iter().map(|node| node_operands(node).len()).collect();
    let mut holder = vec![None; nodes.len()];
    for (own, node) in nodes.iter().enumerate() {
        for operand in node_operands(node) {
            holder[usize::from(*operand)] = Some(own);
        }
    }
    let mut ready: Vec<usize> = (0..nodes.len()).filter(|own| waiting[*own] == 0).collect();
    let mut number = vec![0u16; nodes.len()];
    let mut renumbered: Vec<Node> = Vec::new();
    while !ready.is_empty() {
        let at = random.below(ready.len());
        let own = ready.swap_remove(at);
        number[own] = u16::try_from(renumbered.len()).expect("at most 65,536 nodes");
        renumbered.push(with_operands(&nodes[own], &number));
        if let Some(above) = holder[own] {
            waiting[above] -= 1;
            if waiting[above] == 0 {
                ready.push(above);
            }
        }
    }
    (renumbered, number)
}

fn with_operands(node: &Node, number: &[u16]) -> Node {
    let count = node_operands(node).len();
    let mut changed = *node;
    for operand in &mut changed.operands[..count] {
        *operand = number[usize::from(*operand)];
    }
    changed
}

/// A number of exactly `size` nodes that stays within a variable's range: a constant, a sum of
/// constants, a remainder by a small divisor, or a choice of constants.
pub fn number_within(grower: &mut Grower, size: usize, variable: &Variable) -> u16 {
    let (low, high) = (i64::from(variable.lowest), i64::from(variable.highest));
    let reach = (-low).min(high) + 1;
    if size >= 6 {
        let total = grower.random.between(low, high);
        let other = grower.random.between(low, high);
        let truth = grower.truth(size - 3);
        let left = grower.push(constant(i32::try_from(total).expect("16 bits")));
        let right = grower.push(constant(i32::try_from(other).expect("16 bits")));
        return grower.push(operation(CHOICE, &[truth, left, right]));
    }
    if size >= 3 && reach >= 1 {
        let dividend = grower.number(size - 2);
        let divisor = grower.random.between(1, reach);
        let divisor = grower.push(constant(i32::try_from(divisor).expect("16 bits")));
        return grower.push(operation(REMAINDER, &[dividend, divisor]));
    }
    let value = grower.random.between(low, high);
    constants_summing(grower, size, value)
}

/// A sum of constants of 1, 3 or 5 nodes.
fn constants_summing(grower: &mut Grower, size: usize, value: i64) -> u16 {
    if size == 1 {
        return grower.push(constant(i32::try_from(value).expect("small")));
    }
    let part = grower.random.between(-50, 50);
    let left = grower.push(constant(i32::try_from(part).expect("small")));
    let right = constants_summing(grower, size - 2, value - part);
    grower.push(operation(SUM, &[left, right]))
}
