//! Accepted automata files: translations, mutated ones, and hand-made ones.

use super::expressions::{number_size_possible, Grower, Style};
use super::record_list::RecordList;
use super::sets::any_valid_set;
use crate::assemble::*;
use crate::charts::ChartSet;
use crate::deeds::Deed;
use crate::expressions::Node;
use crate::node_rules::gives;
use crate::operators::Sort;
use crate::random::Random;
use crate::records::*;
use crate::timing::{Clock, Timing};
use crate::translation::twin;
use crate::variables::Variable;

/// The twin of an accepted set.
pub fn translated(random: &mut Random) -> Vec<u8> {
    let set = any_valid_set(random);
    twin(&ChartSet::read(&set).expect("a generated set is accepted"))
}

/// An accepted table of any origin.
pub fn any_table(random: &mut Random) -> Vec<u8> {
    match random.below(40) {
        0 => hand_made(random, &LARGEST),
        1..=12 => translated(random),
        13..=24 => mutated(random),
        _ => hand_made_small(random),
    }
}

/// With fewer edges than locations, so that some location has none.
pub fn hand_made_sparse(random: &mut Random) -> Vec<u8> {
    let mut counts = small_counts(random);
    counts.edges = 1 + random.below(counts.locations);
    hand_made(random, &counts)
}

pub fn hand_made_small(random: &mut Random) -> Vec<u8> {
    let counts = small_counts(random);
    hand_made(random, &counts)
}

/// A twin changed so that it is still accepted but need no longer be the twin of anything.
pub fn mutated(random: &mut Random) -> Vec<u8> {
    let mut list = RecordList::of(&translated(random));
    for _ in 0..1 + random.below(8) {
        mutate(random, &mut list);
    }
    list.bytes()
}

fn mutate(random: &mut Random, list: &mut RecordList) {
    let kind = random.pick(&[LITERAL, UPDATE, RESET]);
    let edges = list.count(EDGE);
    let clocks = list.count(CLOCK);
    match random.below(9) {
        0 => shuffle_kind(random, list, kind),
        1 => remove_one(random, list, kind),
        2 => flip_sign(random, list),
        3 => move_to_edge(random, list, kind, edges),
        4 => change_clock(random, list),
        5 => retarget_edge(random, list),
        6 => share_nodes(random, list),
        7 if clocks > 0 && list.count(RESET) < most(RESET) => {
            let (edge, clock) = (random.index(edges), random.index(clocks));
            list.append(reset(edge, clock));
        }
        _ if list.count(UPDATE) < most(UPDATE) => {
            let (edge, event) = (random.index(edges), random.u8_between(0, 31));
            list.append(update(edge, Deed::Raise { event }));
        }
        _ => {}
    }
}

fn flip_sign(random: &mut Random, list: &mut RecordList) {
    list.change(random, LITERAL, |_| true, |_, record| record[1] = 3 - record[1]);
}

/// A literal, update or reset goes to another edge.
fn move_to_edge(random: &mut Random, list: &mut RecordList, kind: u8, edges: usize) {
    list.change(random, kind, |_| true, |random, record| write_u16(record, 2, random.index(edges)));
}

fn change_clock(random: &mut Random, list: &mut RecordList) {
    list.change(
        random,
        CLOCK,
        |_| true,
        |random, record| {
            record[1] = 5 - record[1];
            write_u16(record, 2, random.pick(&[1, 2, 3, MOST_TICKS]));
        },
    );
}

fn shuffle_kind(random: &mut Random, list: &mut RecordList, kind: u8) {
    if let Some(first) = list.first(kind) {
        let end = first + list.count(kind);
        random.shuffle(&mut list.records[first..end]);
    }
}

fn remove_one(random: &mut Random, list: &mut RecordList, kind: u8) {
    if let Some(first) = list.first(kind) {
        let at = first + random.below(list.count(kind));
        list.records.remove(at);
    }
}

/// Moves an edge's target within its automaton; an idle edge becomes another.
fn retarget_edge(random: &mut Random, list: &mut RecordList) {
    let owners: Vec<u8> =
        list.numbers(LOCATION, |_| true).iter().map(|at| list.get(LOCATION, *at)[1]).collect();
    list.change(
        random,
        EDGE,
        |_| true,
        |random, record| {
            let own = (0u16..).zip(&owners).filter(|(_, owner)| **owner == record[1]);
            let targets: Vec<u16> = own.map(|(location, _)| location).collect();
            let target = random.pick(&targets);
            record[6] = 0;
            write_u16(record, 4, target);
        },
    );
}

/// A literal and an update take the guard of another literal, an update the number of another, and one its guard.
fn share_nodes(random: &mut Random, list: &mut RecordList) {
    let guarded = list.pick(random, LITERAL, |r| read_u16(r, 8) != NONE);
    let conditional = list.pick(random, UPDATE, |r| deed_guard(r).is_some());
    let assigning = list.pick(random, UPDATE, |r| r[1] == ASSIGN);
    if let Some(other) = guarded {
        let node = read_u16(&list.get(LITERAL, other), 8);
        list.change(random, LITERAL, |_| true, |_, record| write_u16(record, 8, node));
        list.change(random, UPDATE, |_| true, |_, record| *record = done_if(*record, node));
    }
    if let Some(other) = conditional {
        let guard = read_u16(&list.get(UPDATE, other), 8);
        list.change(random, UPDATE, |_| true, |_, record| write_u16(record, 8, guard));
    }
    if let Some(other) = assigning {
        let node = read_u16(&list.get(UPDATE, other), 6);
        list.change(random, UPDATE, |r| r[1] == ASSIGN, |_, record| write_u16(record, 6, node));
    }
}

/// How many of each kind a hand-made table has.
pub struct Counts {
    pub automata: usize,
    pub locations: usize,
    pub edges: usize,
    pub literals: usize,
    pub clocks: usize,
    pub variables: usize,
    pub nodes: usize,
    pub updates: usize,
    pub resets: usize,
}

pub const LARGEST: Counts = Counts {
    automata: most(AUTOMATON),
    locations: most(LOCATION),
    edges: most(EDGE),
    literals: most(LITERAL),
    clocks: most(CLOCK),
    variables: most(TWIN_VARIABLE),
    nodes: most(TWIN_NODE),
    updates: most(UPDATE),
    resets: most(RESET),
};

impl Counts {
    fn of(&mut self, kind: u8) -> &mut usize {
        match kind {
            AUTOMATON => &mut self.automata,
            LOCATION => &mut self.locations,
            EDGE => &mut self.edges,
            LITERAL => &mut self.literals,
            CLOCK => &mut self.clocks,
            TWIN_VARIABLE => &mut self.variables,
            TWIN_NODE => &mut self.nodes,
            UPDATE => &mut self.updates,
            RESET => &mut self.resets,
            _ => unreachable!("a kind of a table"),
        }
    }
}

/// A small table but for one kind, of which it has the most there may be, or so many more: then it is refused for that alone.
pub fn filled(random: &mut Random, kind: u8, beyond: usize) -> Vec<u8> {
    let mut counts = small_counts(random);
    *counts.of(kind) = most(kind) + beyond;
    counts.locations = counts.locations.max(counts.automata);
    counts.clocks = counts.clocks.max(1);
    hand_made(random, &counts)
}

fn small_counts(random: &mut Random) -> Counts {
    let automata = 1 + random.below(3);
    let locations = automata + random.below(5);
    Counts {
        automata,
        locations,
        edges: locations + random.below(3 * locations),
        literals: random.below(20),
        clocks: random.below(4),
        variables: random.below(4),
        nodes: random.below(40),
        updates: random.below(10),
        resets: random.below(6),
    }
}

/// A table made without a set: literals, updates and resets in any order, nodes shared or unused,
/// idle edges with updates and resets, locations with two open edges or none.
pub fn hand_made(random: &mut Random, counts: &Counts) -> Vec<u8> {
    let mut owner: Vec<usize> = (0..counts.locations).map(|location| location % counts.automata).collect();
    random.shuffle(&mut owner);
    let nodes = some_nodes(random, counts);
    let mut records: Vec<Record> = Vec::new();
    for number in 0..counts.automata {
        let own = locations_of(&owner, number);
        records.push(automaton(random.pick(&own)));
    }
    records.extend(owner.iter().map(|number| location(u8::try_from(*number).expect("at most 8"))));
    records.extend((0..counts.edges).map(|number| some_edge(random, &owner, number)));
    records.extend(some_literals(random, counts, &nodes));
    records.extend((0..counts.clocks).map(|_| clock(&some_clock(random))));
    records.extend((0..counts.variables).map(|_| variable(TWIN_VARIABLE, &some_variable(random))));
    records.extend(nodes.iter().map(|one| node(TWIN_NODE, one)));
    records.extend(some_updates(random, counts, &nodes));
    let resets = if counts.clocks == 0 { 0 } else { counts.resets };
    records.extend((0..resets).map(|_| reset(random.index(counts.edges), random.index(counts.clocks))));
    file(records)
}

fn locations_of(owner: &[usize], automaton: usize) -> Vec<u16> {
    (0u16..).zip(owner).filter(|(_, of)| **of == automaton).map(|(location, _)| location).collect()
}

/// The first edges leave one location each, so that few locations have none.
fn some_edge(random: &mut Random, owner: &[usize], number: usize) -> Record {
    let source = if number < owner.len() { number } else { random.below(owner.len()) };
    let automaton = owner[source];
    let source = u16::try_from(source).expect("at most 128");
    let idle = random.chance(1, 3);
    let target = if idle { source } else { random.pick(&locations_of(owner, automaton)) };
    edge(u8::try_from(automaton).expect("at most 8"), source, target, idle)
}

fn some_clock(random: &mut Random) -> Clock {
    let ticks = random.pick(&[1, 1, 2, 2, 3, 4, 5, MOST_TICKS - 1, MOST_TICKS]);
    Clock { timing: random.pick(&[Timing::After, Timing::Every]), ticks }
}

fn some_variable(random: &mut Random) -> Variable {
    let lowest = random.pick(&[i16::MIN, -100, -3, 0]);
    let highest = random.pick(&[0, 3, 100, i16::MAX]);
    Variable { lowest, highest, start: random.i16_between(lowest, highest) }
}

/// Several expressions, of which any node may be a guard or an assigned number.
fn some_nodes(random: &mut Random, counts: &Counts) -> Vec<Node> {
    let mut nodes = Vec::new();
    while nodes.len() < counts.nodes {
        let left = counts.nodes - nodes.len();
        let size = 1 + random.below(left.min(9));
        let style = Style { variables: counts.variables, daring: random.chance(1, 10), chain: false };
        let is_truth = size >= 3 && random.chance(2, 3);
        let mut grower = Grower { random, nodes: &mut nodes, style };
        if is_truth {
            grower.truth(size);
        } else {
            grower.number(if number_size_possible(size) { size } else { 1 });
        }
    }
    nodes
}

fn nodes_giving(nodes: &[Node], sort: Sort) -> Vec<u16> {
    (0u16..).take(nodes.len()).filter(|node| gives(nodes, usize::from(*node), sort)).collect()
}

/// Each literal reads the same condition as the one before it, with the other sign and on the next
/// edge, about every second time: so edges exclude each other often, but not always.
fn some_literals(random: &mut Random, counts: &Counts, nodes: &[Node]) -> Vec<Record> {
    let truths = nodes_giving(nodes, Sort::Truth);
    let mut records: Vec<Record> = Vec::new();
    for _ in 0..counts.literals {
        let edge = random.index(counts.edges);
        let record = match records.last() {
            Some(before) if random.chance(1, 2) => {
                let mut other = *before;
                other[1] = 3 - other[1];
                let next = (usize::from(read_u16(before, 2)) + counts.locations) % counts.edges;
                write_u16(&mut other, 2, u16::try_from(next).expect("at most 384"));
                other
            }
            _ => some_literal(random, counts, edge, &truths),
        };
        records.push(record);
    }
    records
}

fn some_literal(random: &mut Random, counts: &Counts, edge: u16, truths: &[u16]) -> Record {
    let guard = if truths.is_empty() || random.chance(1, 3) { NONE } else { random.pick(truths) };
    let plain = literal(random.u8_between(MUST_HOLD, MUST_NOT), edge, guard);
    match random.below(3) {
        0 => reads_event(plain, random.pick(&[0, 1, 2, 31])),
        1 if counts.clocks > 0 => reads_clock(plain, random.index(counts.clocks)),
        _ => plain,
    }
}

/// Two in five updates have a guard, which is often that of the update before.
fn some_updates(random: &mut Random, counts: &Counts, nodes: &[Node]) -> Vec<Record> {
    let numbers = nodes_giving(nodes, Sort::Number);
    let truths = nodes_giving(nodes, Sort::Truth);
    let assignable = counts.variables > 0 && !numbers.is_empty();
    let mut guard = None;
    let mut records = Vec::new();
    for _ in 0..counts.updates {
        let deed = if assignable && random.chance(1, 2) {
            let variable = u8::try_from(random.below(counts.variables)).expect("at most 64");
            Deed::Assign { variable, node: random.pick(&numbers) }
        } else {
            Deed::Raise { event: random.pick(&[0, 1, 2, 31]) }
        };
        guard = match random.below(8) {
            0 | 1 if !truths.is_empty() => Some(random.pick(&truths)),
            2..=4 => guard,
            _ => None,
        };
        let plain = update(random.index(counts.edges), deed);
        records.push(guard.map_or(plain, |guard| done_if(plain, guard)));
    }
    records
}
