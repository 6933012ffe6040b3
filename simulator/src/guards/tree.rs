//! An expression as a tree, whatever the numbers of its nodes.

use crate::assemble::{constant, operation, variable_value};
use crate::expressions::Node;
use crate::node_rules::node_operands;
use crate::operators::{shape, Sort, CONSTANT, VARIABLE_VALUE};

#[derive(Clone, Debug, PartialEq, Eq)]
pub enum Tree {
    Constant(i32),
    Variable(u16),
    /// An operator over as many operands as it has.
    Operation(u8, Vec<Tree>),
}

impl Tree {
    /// The tree below a node, in a list whose operands are lower than their nodes and whose operators are known.
    pub fn of(nodes: &[Node], root: usize) -> Tree {
        let node = &nodes[root];
        match node.operator {
            CONSTANT => Tree::Constant(node.constant),
            VARIABLE_VALUE => Tree::Variable(node.operands[0]),
            operator => {
                let operands =
                    node_operands(node).iter().map(|operand| Tree::of(nodes, usize::from(*operand)));
                Tree::Operation(operator, operands.collect())
            }
        }
    }

    /// What the tree gives; nothing where an operand somewhere in it is of the wrong sort.
    pub fn sort(&self) -> Option<Sort> {
        let Tree::Operation(operator, operands) = self else {
            return Some(Sort::Number);
        };
        let shape = shape(*operator).expect("a known operator");
        let fits = |(operand, sort): (&Tree, &Sort)| operand.sort() == Some(*sort);
        operands.iter().zip(shape.operands).all(fits).then_some(shape.gives)
    }

    /// In the reader's numbering: operands first, left to right.
    pub fn nodes(&self) -> Vec<Node> {
        let mut nodes = Vec::new();
        self.append_to(&mut nodes);
        nodes
    }

    /// Gives the number of the root.
    fn append_to(&self, nodes: &mut Vec<Node>) -> u16 {
        let node = match self {
            Tree::Constant(value) => constant(*value),
            Tree::Variable(number) => variable_value(*number),
            Tree::Operation(operator, operands) => {
                let numbers: Vec<u16> = operands.iter().map(|operand| operand.append_to(nodes)).collect();
                operation(*operator, &numbers)
            }
        };
        nodes.push(node);
        u16::try_from(nodes.len() - 1).expect("at most 65,536 nodes")
    }
}
