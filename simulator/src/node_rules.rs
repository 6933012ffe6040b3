//! Rules about node lists that chart sets (5, 6, 8) and automata files (11) share.

use crate::expressions::Node;
use crate::operators::{shape, Sort, VARIABLE_VALUE};

/// The operands that are nodes; none under an unknown operator.
pub fn node_operands(node: &Node) -> &[u16] {
    let count = shape(node.operator).map_or(0, |shape| shape.operands.len());
    &node.operands[..count]
}

/// Every number in a node names a variable or a node of the file.
pub fn names_something(node: &Node, nodes: usize, variables: usize) -> bool {
    let variable_named = node.operator != VARIABLE_VALUE || usize::from(node.operands[0]) < variables;
    variable_named && node_operands(node).iter().all(|operand| usize::from(*operand) < nodes)
}

/// Each operand node is lower than its node and of the sort the operator takes.
pub fn operands_lower_and_sorted(nodes: &[Node]) -> bool {
    nodes.iter().enumerate().all(|(own, node)| {
        let Some(shape) = shape(node.operator) else {
            return false;
        };
        node_operands(node).iter().zip(shape.operands).all(|(operand, sort)| {
            let operand = usize::from(*operand);
            operand < own && gives(nodes, operand, *sort)
        })
    })
}

pub fn gives(nodes: &[Node], node: usize, sort: Sort) -> bool {
    nodes.get(node).and_then(|node| shape(node.operator)).is_some_and(|shape| shape.gives == sort)
}

/// How often each node is an operand, over all operand places.
pub fn operand_uses(nodes: &[Node]) -> Vec<usize> {
    let mut uses = vec![0; nodes.len()];
    for operand in nodes.iter().flat_map(node_operands) {
        uses[usize::from(*operand)] += 1;
    }
    uses
}
