//! Damaged lists of nodes for the writer of guards: each clause of 3, 5, 6 and 8, two at once, and changes that may break any.

use super::expressions::{renumber, EXTREMES};
use super::guard_lines::{other_sort, tree};
use super::guard_lists::{bytes, nodes, of_size};
use super::ways::{insist, ways, Way};
use crate::assemble::{constant, operation, variable_value};
use crate::expressions::Node;
use crate::guards::MOST_NODES;
use crate::node_rules::node_operands;
use crate::operators::*;
use crate::random::Random;
use crate::records::RECORD_LEN;

type Nodes = Vec<Node>;
type Damage = fn(&mut Random, &mut Nodes) -> Option<()>;

pub const WAYS: &[Way] = ways! {
    "1,025 nodes" [3], |random| bytes(&of_size(random, MOST_NODES + 1));
    "far more than 1,024 nodes" [3], far_more;
    "an unknown operator" [5], |random| damaged(random, &[unknown_operator]);
    "an operand beyond the count" [6], |random| damaged(random, &[operand_beyond]);
    "a variable above 63" [6], |random| damaged(random, &[variable_above]);
    "its own number as an operand" [8], |random| damaged(random, &[own_number]);
    "a higher operand" [8], |random| damaged(random, &[higher_operand]);
    "the root used" [8], |random| damaged(random, &[root_used]);
    "a wrong sort" [8], |random| damaged(random, &[wrong_sort]);
    "used twice" [8], |random| damaged(random, &[used_twice]);
    "used twice, none unused" [8], |random| damaged(random, &[used_in_place_of_leaf]);
    "never used" [8], |random| damaged(random, &[never_used]);
    "two trees" [8], |random| damaged(random, &[two_trees]);
    "a root that is no truth" [8], number_as_root;
    "no node" [8], |random| (0..random.below(RECORD_LEN)).map(|_| random.u8()).collect();
    "a ring" [8], ring;
    "right in all but the order" [8], |random| damaged(random, &[out_of_order]);
    "5 and 3" [3], one_more_and_unknown;
    "6 and 5" [5], |random| damaged(random, &[operand_beyond, unknown_operator]);
    "8 and 5" [5], |random| damaged(random, &[higher_operand, unknown_operator]);
    "8 and 6" [6], |random| damaged(random, &[own_number, variable_above]);
    "8 and 6, an operand" [6], |random| damaged(random, &[never_used, operand_beyond]);
    "any nodes" [0, 5, 6, 8], any_nodes;
    "a byte changed" [0, 5, 6, 8], byte_changed;
    "any bytes" [5, 6, 8], any_bytes;
};

fn damaged(random: &mut Random, damages: &[Damage]) -> Vec<u8> {
    insist(random, |random| {
        let mut list = nodes(random);
        damages.iter().try_for_each(|damage| damage(random, &mut list))?;
        Some(bytes(&list))
    })
}

fn far_more(random: &mut Random) -> Vec<u8> {
    let more = 2 + random.below(4_000);
    bytes(&of_size(random, MOST_NODES + more))
}

fn one_more_and_unknown(random: &mut Random) -> Vec<u8> {
    let mut list = of_size(random, MOST_NODES + 1);
    unknown_operator(random, &mut list);
    bytes(&list)
}

fn any_bytes(random: &mut Random) -> Vec<u8> {
    let most = random.pick(&[40, 400]);
    (0..random.below(most)).map(|_| random.u8()).collect()
}

/// A number of 16 bits; lists are short.
fn number(of: usize) -> u16 {
    u16::try_from(of).expect("few nodes")
}

/// A node that fits, by its number.
fn pick(random: &mut Random, list: &Nodes, fits: impl Fn(usize, &Node) -> bool) -> Option<usize> {
    let found: Vec<usize> = (0..list.len()).filter(|own| fits(*own, &list[*own])).collect();
    (!found.is_empty()).then(|| random.pick(&found))
}

fn is_leaf(node: &Node) -> bool {
    node_operands(node).is_empty()
}

/// Sets an operand of some node that has any.
fn operand(random: &mut Random, list: &mut Nodes, to: impl Fn(&mut Random, usize) -> usize) -> Option<()> {
    let own = pick(random, list, |_, node| !is_leaf(node))?;
    let place = random.below(node_operands(&list[own]).len());
    list[own].operands[place] = number(to(random, own));
    Some(())
}

fn unknown_operator(random: &mut Random, list: &mut Nodes) -> Option<()> {
    let at = random.below(list.len());
    list[at].operator = random.pick(&[0, 9, 15, 22, 128, 255]);
    Some(())
}

fn operand_beyond(random: &mut Random, list: &mut Nodes) -> Option<()> {
    let count = list.len();
    operand(random, list, |random, _| random.pick(&[count, count, count + 1, 1_024, 65_535]).max(count))
}

fn variable_above(random: &mut Random, list: &mut Nodes) -> Option<()> {
    let at = pick(random, list, |_, node| is_leaf(node))?;
    list[at] = variable_value(random.pick(&[64, 64, 65, 255, 256, 320, 65_535]));
    Some(())
}

fn own_number(random: &mut Random, list: &mut Nodes) -> Option<()> {
    operand(random, list, |_, own| own)
}

/// From the own number up to the count less one.
fn higher_operand(random: &mut Random, list: &mut Nodes) -> Option<()> {
    let count = list.len();
    operand(random, list, |random, own| own + random.below(count - own))
}

fn root_used(random: &mut Random, list: &mut Nodes) -> Option<()> {
    let root = list.len() - 1;
    operand(random, list, |_, _| root)
}

fn wrong_sort(random: &mut Random, list: &mut Nodes) -> Option<()> {
    let at = random.below(list.len());
    list[at].operator = other_sort(random, list[at].operator)?;
    Some(())
}

/// One operand of a node also as its other, so that one is used twice and one never.
fn used_twice(random: &mut Random, list: &mut Nodes) -> Option<()> {
    let at = pick(random, list, |_, node| node_operands(node).len() > 1)?;
    let [.., a, b] = *node_operands(&list[at]) else { unreachable!("two operands or more") };
    let last = node_operands(&list[at]).len() - 1;
    let (place, value) = random.pick(&[(last, a), (last - 1, b)]);
    list[at].operands[place] = value;
    Some(())
}

/// A sum of two numbers used elsewhere in the place of a leaf.
fn used_in_place_of_leaf(random: &mut Random, list: &mut Nodes) -> Option<()> {
    let is_number = |node: &Node| shape(node.operator).is_some_and(|shape| shape.gives == Sort::Number);
    let at = pick(random, list, |own, node| is_leaf(node) && list[..own].iter().any(is_number))?;
    let below: Nodes = list[..at].to_vec();
    let [a, b] = [0; 2].map(|_| pick(random, &below, |_, node| is_number(node)).map_or(0, number));
    list[at] = operation(SUM, &[a, b]);
    Some(())
}

/// One more leaf, at the start.
fn never_used(random: &mut Random, list: &mut Nodes) -> Option<()> {
    for node in list.iter_mut() {
        let count = node_operands(node).len();
        node.operands[..count].iter_mut().for_each(|operand| *operand += 1);
    }
    list.insert(0, random.pick(&[constant(1), variable_value(5)]));
    Some(())
}

fn two_trees(random: &mut Random, list: &mut Nodes) -> Option<()> {
    let first = number(list.len());
    for mut node in nodes(random) {
        let count = node_operands(&node).len();
        node.operands[..count].iter_mut().for_each(|operand| *operand += first);
        list.push(node);
    }
    Some(())
}

fn number_as_root(random: &mut Random) -> Vec<u8> {
    let size = random.pick(&[1, 3, 5, 6, 30]);
    let nodes = tree(random, Sort::Number, size).nodes();
    bytes(&renumber(random, &nodes).0)
}

/// Negations of each other, alone or before a tree.
fn ring(random: &mut Random) -> Vec<u8> {
    let length = 1 + random.below(5);
    let mut list: Nodes = (0..length).map(|own| operation(NOT, &[number((own + 1) % length)])).collect();
    if random.chance(1, 2) {
        two_trees(random, &mut list);
    }
    bytes(&list)
}

/// The same tree, but some operand stands behind its node.
fn out_of_order(random: &mut Random, list: &mut Nodes) -> Option<()> {
    let mut order: Vec<usize> = (0..list.len()).collect();
    if random.chance(1, 2) {
        random.shuffle(&mut order);
    } else {
        order.swap(random.below(list.len()), list.len() - 1);
    }
    let mut new = vec![0; list.len()];
    for (place, old) in order.iter().enumerate() {
        new[*old] = number(place);
    }
    let moved = |old: &usize| {
        let mut node = list[*old];
        let count = node_operands(&node).len();
        node.operands[..count].iter_mut().for_each(|operand| *operand = new[usize::from(*operand)]);
        node
    };
    let changed: Nodes = order.iter().map(moved).collect();
    let behind = |(own, node): (usize, &Node)| node_operands(node).iter().any(|of| usize::from(*of) >= own);
    let broken = changed.iter().enumerate().any(behind);
    *list = changed;
    broken.then_some(())
}

/// Any operators, whatever the sorts, over operands that are mostly lower and mostly not used before.
fn any_nodes(random: &mut Random) -> Vec<u8> {
    let most = random.pick(&[3, 5, 8, 20]);
    let mut unused: Vec<u16> = Vec::new();
    let mut list = Nodes::new();
    for own in 0..1 + random.below(most) {
        let mut node = any_node(random);
        for place in 0..node_operands(&node).len() {
            let lower = (!unused.is_empty() && random.chance(19, 20)).then(|| random.below(unused.len()));
            node.operands[place] = lower.map_or_else(|| random.index(own + 2), |at| unused.remove(at));
        }
        unused.push(number(own));
        list.push(node);
    }
    bytes(&list)
}

fn any_node(random: &mut Random) -> Node {
    match random.below(30) {
        0 => operation(random.u8(), &[]),
        1..=9 => constant(random.pick(&EXTREMES)),
        10..=14 => variable_value(random.index(66)),
        15 => operation(CHOICE, &[]),
        16..=18 => operation(SUM, &[]),
        _ => operation(random.pick(&[EQUAL, LESS, AT_MOST, LESS, NOT, AND, OR]), &[]),
    }
}

fn byte_changed(random: &mut Random) -> Vec<u8> {
    let mut list = bytes(&nodes(random));
    for _ in 0..1 + random.below(2) {
        let at = random.below(list.len());
        let any = random.u8();
        list[at] = random.pick(&[0, 1, 2, 3, 8, 16, 19, 64, 255, any]);
    }
    list
}
