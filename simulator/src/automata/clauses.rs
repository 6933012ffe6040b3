//! The clauses of refusal 11, each asked by itself.

use super::raw::{RawEdge, RawLiteral, RawTable, RawUpdate};
use crate::files::Sections;
use crate::node_rules::{gives, names_something, node_operands};
use crate::operators::{shape, Sort};
use crate::records::*;

type Clause = fn(&RawTable) -> bool;

/// Those that are asked of the records of known kinds, in ascending kinds. What one of them is for, the others pass over: a
/// number that names nothing has no automaton and no sort, and an operator out of code takes no operands.
const OF_RECORDS: [(&str, Clause); 9] = [
    ("code or range", |table| !codes_and_ranges(table)),
    ("names nothing", |table| !names(table)),
    ("ticks outside 1 to 36,000", |table| {
        table.clocks.iter().any(|(_, ticks)| !(1..=36_000).contains(ticks))
    }),
    ("initial location in another automaton", initial_elsewhere),
    ("end in another automaton", |table| table.edges.iter().any(|edge| end_elsewhere(table, edge))),
    ("idle edge with two ends", |table| {
        table.edges.iter().any(|edge| edge.idle == 1 && edge.source != edge.target)
    }),
    ("operand not lower", |table| {
        operands(table).any(|(own, operand, _)| operand >= own && operand < table.nodes.len())
    }),
    ("node of the wrong sort", wrong_sort),
    ("operand twice", operand_twice),
];

pub const CLAUSES: [&str; 13] = [
    "length",
    "kinds",
    "counts",
    "stray byte",
    OF_RECORDS[0].0,
    OF_RECORDS[1].0,
    OF_RECORDS[2].0,
    OF_RECORDS[3].0,
    OF_RECORDS[4].0,
    OF_RECORDS[5].0,
    OF_RECORDS[6].0,
    OF_RECORDS[7].0,
    OF_RECORDS[8].0,
];

/// The clauses that a file breaks; none where it is accepted.
pub fn broken_clauses(bytes: &[u8]) -> Vec<&'static str> {
    let records = whole_records(bytes);
    let known = |record: &&Record| AUTOMATA_LIMITS.iter().any(|(kind, _)| *kind == record[0]);
    let mut sorted: Vec<Record> = records.iter().filter(known).copied().collect();
    sorted.sort_by_key(|record| record[0]);
    let sections = Sections::of_ascending(&sorted, &AUTOMATA_LIMITS);
    let table = RawTable::decode(&sections);
    let of_file = [
        !bytes.len().is_multiple_of(RECORD_LEN),
        sorted != records,
        sections.miscounted(),
        sections.has_stray_byte(),
    ];
    let of_records = OF_RECORDS.iter().map(|(_, broken)| broken(&table));
    let broken = of_file.into_iter().chain(of_records);
    CLAUSES.into_iter().zip(broken).filter(|(_, broken)| *broken).map(|(clause, _)| clause).collect()
}

fn codes_and_ranges(table: &RawTable) -> bool {
    let literal = |literal: &RawLiteral| {
        (MUST_HOLD..=MUST_NOT).contains(&literal.sign)
            && literal.trigger <= ON_CLOCK
            && (literal.trigger != ON_EVENT || literal.event < EVENTS)
    };
    let update = |update: &RawUpdate| {
        update.deed == ASSIGN || update.deed == RAISE && update.variable_or_event < EVENTS
    };
    table.edges.iter().all(|edge| edge.idle <= 1)
        && table.literals.iter().all(literal)
        && table.clocks.iter().all(|(trigger, _)| (AFTER..=EVERY).contains(trigger))
        && table.variables.iter().all(|variable| variable.well_ranged())
        && table.nodes.iter().all(|node| shape(node.operator).is_some())
        && table.updates.iter().all(update)
}

fn names(table: &RawTable) -> bool {
    let edges = table.edges.len();
    let below = |number: u16, count: usize| usize::from(number) < count;
    let location = |number: u16| below(number, table.automaton_of.len());
    let automaton = |number: u8| usize::from(number) < table.initial.len();
    let literal = |literal: &RawLiteral| {
        below(literal.edge, edges)
            && (literal.trigger != ON_CLOCK || below(literal.clock, table.clocks.len()))
            && (literal.node == NONE || below(literal.node, table.nodes.len()))
    };
    let assignment = |update: &RawUpdate| {
        usize::from(update.variable_or_event) < table.variables.len() && below(update.node, table.nodes.len())
    };
    table.initial.iter().all(|number| location(*number))
        && table.automaton_of.iter().all(|number| automaton(*number))
        && table
            .edges
            .iter()
            .all(|edge| automaton(edge.automaton) && location(edge.source) && location(edge.target))
        && table.literals.iter().all(literal)
        && table
            .nodes
            .iter()
            .filter(|node| shape(node.operator).is_some())
            .all(|node| names_something(node, table.nodes.len(), table.variables.len()))
        && table.updates.iter().all(|update| {
            below(update.edge, edges)
                && (update.deed != ASSIGN || assignment(update))
                && update.guard.is_none_or(|guard| below(guard, table.nodes.len()))
        })
        && table.resets.iter().all(|(edge, clock)| below(*edge, edges) && below(*clock, table.clocks.len()))
}

/// The automaton of a location, if there is such a location and such an automaton.
fn automaton_of(table: &RawTable, location: u16) -> Option<usize> {
    let number = usize::from(*table.automaton_of.get(usize::from(location))?);
    (number < table.initial.len()).then_some(number)
}

fn initial_elsewhere(table: &RawTable) -> bool {
    let elsewhere =
        |(own, location): (usize, &u16)| automaton_of(table, *location).is_some_and(|of| of != own);
    table.initial.iter().enumerate().any(elsewhere)
}

fn end_elsewhere(table: &RawTable, edge: &RawEdge) -> bool {
    let own = usize::from(edge.automaton);
    own < table.initial.len()
        && [edge.source, edge.target].iter().any(|end| automaton_of(table, *end).is_some_and(|of| of != own))
}

/// Every operand with its node's number and the sort that it should be of.
fn operands(table: &RawTable) -> impl Iterator<Item = (usize, usize, Sort)> + '_ {
    table.nodes.iter().enumerate().filter(|(_, node)| shape(node.operator).is_some()).flat_map(
        |(own, node)| {
            let sorts = shape(node.operator).expect("a known operator").operands;
            node_operands(node)
                .iter()
                .zip(sorts)
                .map(move |(operand, sort)| (own, usize::from(*operand), *sort))
        },
    )
}

fn wrong_sort(table: &RawTable) -> bool {
    let wrong = |node: usize, sort: Sort| {
        let known = table.nodes.get(node).is_some_and(|node| shape(node.operator).is_some());
        known && !gives(&table.nodes, node, sort)
    };
    let assigned = table.updates.iter().filter(|update| update.deed == ASSIGN).map(|update| update.node);
    operands(table).any(|(_, operand, sort)| wrong(operand, sort))
        || table.guards().any(|node| wrong(node, Sort::Truth))
        || assigned.map(usize::from).any(|node| wrong(node, Sort::Number))
}

fn operand_twice(table: &RawTable) -> bool {
    let mut seen = vec![false; table.nodes.len()];
    operands(table)
        .filter(|(_, operand, _)| *operand < table.nodes.len())
        .any(|(_, operand, _)| std::mem::replace(&mut seen[operand], true))
}
