//! Guards typed as a line (document 02): a reader of lines into nodes, and a writer of nodes back into a line.
//!
//! The reader goes from bytes to tokens, from tokens to a tree, from the tree to nodes; the writer from nodes to a
//! tree, from the tree to text. What binds how tight stands once, in `binding`.

pub(crate) mod binding;
mod parser;
mod tokens;
mod tree;
mod writer;

pub use tree::Tree;

use crate::assemble;
use crate::expressions::Node;
use crate::interface::{count, returned};
use crate::node_rules::{gives, names_something, operand_uses, operands_lower_and_sorted};
use crate::operators::{shape, Sort};
use crate::records::{whole_records, NODE, RECORD_LEN};
use crate::refusals::{self, Refusal};
use crate::variables::VARIABLE_PLACES;

/// A line has 1 to so many bytes.
pub const LONGEST_LINE: usize = 256;
/// As many as any set holds.
pub const MOST_NODES: usize = 1_024;

/// The number of nodes, whose records are put at the start of `nodes`; or minus the refusal's number, and nothing is changed.
pub fn read_guard(text: &[u8], nodes: &mut [u8]) -> i32 {
    returned(read(text).and_then(|tree| place(&records(&tree), nodes)), |bytes| count(bytes / RECORD_LEN))
}

/// The number of bytes, which are put at the start of `text`; or minus the refusal's number, and nothing is changed.
pub fn write_guard(nodes: &[u8], text: &mut [u8]) -> i32 {
    returned(checked(nodes).and_then(|tree| place(tree.text().as_bytes(), text)), count)
}

/// Refusal 22 of the whole line, then 23 of its tree.
pub fn read(text: &[u8]) -> Result<Tree, Refusal> {
    if !(1..=LONGEST_LINE).contains(&text.len()) {
        return Err(refusals::LINE);
    }
    let tree = parser::parse(&tokens::tokens(text)?)?;
    if tree.sort() == Some(Sort::Truth) {
        Ok(tree)
    } else {
        Err(refusals::LINE_SORT)
    }
}

/// The tree's nodes as whole records.
pub fn records(tree: &Tree) -> Vec<u8> {
    assemble::file(tree.nodes().iter().map(|node| assemble::node(NODE, node)))
}

/// Refusal 24.
fn place(bytes: &[u8], lent: &mut [u8]) -> Result<usize, Refusal> {
    let part = lent.get_mut(..bytes.len()).ok_or(refusals::LINE_ROOM)?;
    part.copy_from_slice(bytes);
    Ok(bytes.len())
}

/// Refusals 3, 5, 6 and 8, each asked of the whole list; then the tree whose root is the last node.
pub fn checked(nodes: &[u8]) -> Result<Tree, Refusal> {
    let nodes: Vec<Node> = whole_records(nodes).iter().map(Node::read).collect();
    if nodes.len() > MOST_NODES {
        return Err(refusals::COUNT);
    }
    if nodes.iter().any(|node| shape(node.operator).is_none()) {
        return Err(refusals::CODE_OR_RANGE);
    }
    if !nodes.iter().all(|node| names_something(node, nodes.len(), VARIABLE_PLACES)) {
        return Err(refusals::NAMES_NOTHING);
    }
    match nodes.len().checked_sub(1) {
        Some(root) if makes_tree(&nodes, root) => Ok(Tree::of(&nodes, root)),
        _ => Err(refusals::NODES),
    }
}

/// A truth as the root, and every other node used exactly once.
fn makes_tree(nodes: &[Node], root: usize) -> bool {
    let right_uses = |(node, uses): (usize, usize)| uses == usize::from(node != root);
    operands_lower_and_sorted(nodes)
        && gives(nodes, root, Sort::Truth)
        && operand_uses(nodes).into_iter().enumerate().all(right_uses)
}
