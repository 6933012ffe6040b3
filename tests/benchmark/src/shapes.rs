//! Guards of 1,024 nodes: chains of every operation under a conjunction, and one nesting alone in each place where operations nest, as in tests/c/stack.c.

use simulator::assemble::{constant, operation, variable_value};
use simulator::expressions::Node;
use simulator::operators::{AND, AT_MOST, CHOICE, DIFFERENCE, EQUAL, NOT, PRODUCT, QUOTIENT, REMAINDER, SUM};
use std::collections::VecDeque;

const MOST: usize = 1_024;

#[derive(Default)]
pub struct Growing(Vec<Node>);

impl Growing {
    fn push(&mut self, node: Node) -> u16 {
        self.0.push(node);
        u16::try_from(self.0.len() - 1).expect("at most 1,024")
    }

    fn constant(&mut self, value: i32) -> u16 {
        self.push(constant(value))
    }

    fn operation(&mut self, operator: u8, operands: &[u16]) -> u16 {
        self.push(operation(operator, operands))
    }

    fn has_room(&self, nodes: usize, most: usize) -> bool {
        self.0.len() + nodes <= most
    }

    /// That a chain of 30 operations is at most 100, which its last, a remainder, sees to.
    fn comparison(&mut self, place: u16) -> u16 {
        let mut number = self.push(variable_value(place));
        for round in 0..6 {
            let operations = [
                (SUM, variable_value(place + 8 * round)),
                (PRODUCT, constant(3)),
                (DIFFERENCE, variable_value(round)),
                (QUOTIENT, constant(2)),
                (REMAINDER, constant(100)),
            ];
            for (operator, leaf) in operations {
                let leaf = self.push(leaf);
                number = self.operation(operator, &[number, leaf]);
            }
        }
        let most = self.constant(100);
        self.operation(AT_MOST, &[number, most])
    }

    /// A truth of three nodes.
    fn holds(&mut self) -> u16 {
        let operands = [self.constant(0), self.constant(0)];
        self.operation(EQUAL, &operands)
    }

    /// Numbers of so many nodes at most, nested in one place: the left or right of a sum, the two numbers of a choice, its truth.
    fn sums(&mut self, most: usize, left: bool) -> u16 {
        let mut root = self.constant(1);
        while self.has_room(2, most) {
            let leaf = self.constant(1);
            root = self.operation(SUM, &if left { [root, leaf] } else { [leaf, root] });
        }
        root
    }

    fn choices(&mut self, most: usize, first: bool) -> u16 {
        let mut root = self.constant(1);
        while self.has_room(6, most) {
            let holds = self.holds();
            let truth = if first { holds } else { self.operation(NOT, &[holds]) };
            let leaf = self.constant(1);
            root = self.operation(CHOICE, &if first { [truth, root, leaf] } else { [truth, leaf, root] });
        }
        root
    }

    fn truths_of_choices(&mut self, most: usize) -> u16 {
        let mut root = self.constant(1);
        while self.has_room(5, most) {
            let operands = [root, self.constant(1)];
            let truth = self.operation(EQUAL, &operands);
            let operands = [truth, self.constant(1), self.constant(1)];
            root = self.operation(CHOICE, &operands);
        }
        root
    }

    /// Truths: negations, the left or right of conjunctions.
    fn negations(&mut self) -> u16 {
        let mut root = self.holds();
        while self.has_room(1, MOST) {
            root = self.operation(NOT, &[root]);
        }
        root
    }

    fn conjunctions(&mut self, left: bool) -> u16 {
        let mut root = self.holds();
        while self.has_room(4, MOST) {
            let leaf = self.holds();
            root = self.operation(AND, &if left { [root, leaf] } else { [leaf, root] });
        }
        root
    }

    /// A truth of a number, which the two last nodes are left for.
    fn not_negative(&mut self, number: u16) -> u16 {
        let zero = self.constant(0);
        self.operation(AT_MOST, &[zero, number])
    }

    fn nodes(self) -> Vec<Node> {
        let most = self.0.len();
        assert!((MOST - 5..=MOST).contains(&most), "{most} nodes");
        self.0
    }
}

/// Not the conjunction of 16 comparisons, all of which hold: every node is worked out.
pub fn guard_nodes() -> Vec<Node> {
    let mut growing = Growing::default();
    let mut truths: VecDeque<u16> = (0..16).map(|place| growing.comparison(place)).collect();
    let mut first = truths.pop_front().expect("one of 16");
    while let Some(second) = truths.pop_front() {
        truths.push_back(growing.operation(AND, &[first, second]));
        first = truths.pop_front().expect("at least the last");
    }
    growing.operation(NOT, &[first]);
    growing.nodes()
}

fn of_number(nest: impl Fn(&mut Growing) -> u16) -> Vec<Node> {
    let mut growing = Growing::default();
    let number = nest(&mut growing);
    growing.not_negative(number);
    growing.nodes()
}

fn of_truth(nest: impl Fn(&mut Growing) -> u16) -> Vec<Node> {
    let mut growing = Growing::default();
    nest(&mut growing);
    growing.nodes()
}

/// Each shape by its name; the last node is the root.
pub fn all() -> [(&'static str, Vec<Node>); 8] {
    let room = MOST - 2;
    [
        ("sum left", of_number(|growing| growing.sums(room, true))),
        ("sum right", of_number(|growing| growing.sums(room, false))),
        ("choice 1st", of_number(|growing| growing.choices(room, true))),
        ("choice 2nd", of_number(|growing| growing.choices(room, false))),
        ("in truth", of_number(|growing| growing.truths_of_choices(room))),
        ("nots", of_truth(Growing::negations)),
        ("and left", of_truth(|growing| growing.conjunctions(true))),
        ("and right", of_truth(|growing| growing.conjunctions(false))),
    ]
}
