//! The line of a tree, without spaces, and with parentheses only where leaving them out would change the tree.

use super::binding::{level, spelling, CHOICE_LEVEL, LEAF_LEVEL, LOOSEST_LEVEL, NOT_LEVEL};
use super::tree::Tree;
use crate::operators::{CHOICE, NOT};

impl Tree {
    pub fn text(&self) -> String {
        match self {
            Tree::Constant(value) => value.to_string(),
            Tree::Variable(number) => format!("v{number}"),
            Tree::Operation(NOT, operands) => format!("!{}", operands[0].text_from(NOT_LEVEL)),
            // Bare between the signs; the last groups to the right.
            Tree::Operation(CHOICE, operands) => format!(
                "{}?{}:{}",
                operands[0].text_from(LOOSEST_LEVEL),
                operands[1].text_from(CHOICE_LEVEL),
                operands[2].text_from(CHOICE_LEVEL)
            ),
            // Equal levels group to the left.
            Tree::Operation(operator, operands) => format!(
                "{}{}{}",
                operands[0].text_from(level(*operator)),
                spelling(*operator),
                operands[1].text_from(level(*operator) + 1)
            ),
        }
    }

    /// In parentheses where the tree binds looser than its place asks.
    fn text_from(&self, least: usize) -> String {
        if self.level() < least {
            format!("({})", self.text())
        } else {
            self.text()
        }
    }

    /// A negative constant is as tight as any: its minus is its own.
    pub(crate) fn level(&self) -> usize {
        match self {
            Tree::Operation(operator, _) => level(*operator),
            _ => LEAF_LEVEL,
        }
    }
}
