//! Lists of nodes for the writer of guards: trees in the reader's numbering and in any other with operands lower.

use super::expressions::renumber;
use super::guard_lines::{fitting, tree};
use super::ways::{ways, Way};
use crate::assemble;
use crate::expressions::Node;
use crate::files::named_bytes;
use crate::guards::{Tree, MOST_NODES};
use crate::operators::Sort;
use crate::random::Random;
use crate::records::{Record, NODE, RECORD_LEN};

/// Lists that are written; those refused are `guard_list_damage`'s.
pub const WAYS: &[Way] = ways! {
    "as it is read" [0], |random| bytes(&fitting(random).nodes());
    "any length" [0], |random| bytes(&truth(random).nodes());
    "another order" [0], |random| bytes(&nodes(random));
    "unused bytes" [0], with_unused_bytes;
    "bytes behind the last record" [0], with_bytes_behind;
    "1,024 nodes" [0], |random| bytes(&of_size(random, MOST_NODES));
};

pub fn bytes(nodes: &[Node]) -> Vec<u8> {
    assemble::file(nodes.iter().map(|node| assemble::node(NODE, node)))
}

/// Mostly few nodes, up to 400.
fn truth(random: &mut Random) -> Tree {
    let most = random.pick(&[5, 12, 30, 100, 400]);
    let size = 3 + random.below(most - 2);
    tree(random, Sort::Truth, size)
}

/// In any order that has operands lower, the root being the last.
pub fn nodes(random: &mut Random) -> Vec<Node> {
    let nodes = truth(random).nodes();
    renumber(random, &nodes).0
}

pub fn of_size(random: &mut Random, size: usize) -> Vec<Node> {
    let nodes = tree(random, Sort::Truth, size).nodes();
    if random.chance(1, 2) {
        nodes
    } else {
        renumber(random, &nodes).0
    }
}

/// Kinds and what operators do not use, which the writer does not look at.
fn with_unused_bytes(random: &mut Random) -> Vec<u8> {
    let records = nodes(random).iter().map(|node| assemble::node(NODE, node)).collect::<Vec<Record>>();
    assemble::file(records.into_iter().map(|mut record| {
        let named = named_bytes(&record) & !1;
        for at in (0..RECORD_LEN).filter(|at| named >> at & 1 == 0) {
            let any = random.u8();
            record[at] = random.pick(&[0, 5, 255, any]);
        }
        record
    }))
}

fn with_bytes_behind(random: &mut Random) -> Vec<u8> {
    let mut list = bytes(&nodes(random));
    list.extend((0..1 + random.below(RECORD_LEN - 1)).map(|_| random.u8()));
    list
}
