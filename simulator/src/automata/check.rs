//! What refusal 11 asks beyond length, kinds, counts and stray bytes.

use super::raw::{RawLiteral, RawTable, RawUpdate};
use crate::node_rules::{gives, names_something, operand_uses, operands_lower_and_sorted};
use crate::operators::{shape, Sort};
use crate::records::*;

pub fn accepted(table: &RawTable) -> bool {
    codes_and_ranges(table) && names(table) && within_automata(table) && nodes_kept(table)
}

fn codes_and_ranges(table: &RawTable) -> bool {
    table.edges.iter().all(|edge| edge.idle <= 1)
        && table.literals.iter().all(literal_codes)
        && table
            .clocks
            .iter()
            .all(|(trigger, ticks)| matches!(*trigger, AFTER | EVERY) && (1..=MOST_TICKS).contains(ticks))
        && table.variables.iter().all(|variable| variable.well_ranged())
        && table.nodes.iter().all(|node| shape(node.operator).is_some())
        && table.updates.iter().all(update_codes)
}

fn literal_codes(literal: &RawLiteral) -> bool {
    let trigger_kept = match literal.trigger {
        NO_TRIGGER | ON_CLOCK => true,
        ON_EVENT => literal.event < EVENTS,
        _ => false,
    };
    matches!(literal.sign, MUST_HOLD | MUST_NOT) && trigger_kept
}

fn update_codes(update: &RawUpdate) -> bool {
    match update.deed {
        ASSIGN => true,
        RAISE => update.variable_or_event < EVENTS,
        _ => false,
    }
}

fn names(table: &RawTable) -> bool {
    let location = |number: u16| usize::from(number) < table.automaton_of.len();
    let automaton = |number: u8| usize::from(number) < table.initial.len();
    let edge = |number: u16| usize::from(number) < table.edges.len();
    let clock = |number: u16| usize::from(number) < table.clocks.len();
    let node = |number: u16| usize::from(number) < table.nodes.len();
    let variable = |number: u8| usize::from(number) < table.variables.len();
    table.initial.iter().all(|initial| location(*initial))
        && table.automaton_of.iter().all(|owner| automaton(*owner))
        && table.edges.iter().all(|e| automaton(e.automaton) && location(e.source) && location(e.target))
        && table.literals.iter().all(|literal| {
            let clock_named = literal.trigger != ON_CLOCK || clock(literal.clock);
            edge(literal.edge) && clock_named && (literal.node == NONE || node(literal.node))
        })
        && table.nodes.iter().all(|n| names_something(n, table.nodes.len(), table.variables.len()))
        && table.updates.iter().all(|update| {
            let assigns = update.deed == ASSIGN;
            edge(update.edge)
                && (!assigns || variable(update.variable_or_event) && node(update.node))
                && update.guard.is_none_or(node)
        })
        && table.resets.iter().all(|(of_edge, of_clock)| edge(*of_edge) && clock(*of_clock))
}

/// Ends and initial locations lie in their automaton; an idle edge has one location for both ends.
fn within_automata(table: &RawTable) -> bool {
    let automaton = |location: u16| usize::from(table.automaton_of[usize::from(location)]);
    let initial_kept = |(number, location): (usize, &u16)| automaton(*location) == number;
    table.initial.iter().enumerate().all(initial_kept)
        && table.edges.iter().all(|edge| {
            let own = usize::from(edge.automaton);
            automaton(edge.source) == own
                && automaton(edge.target) == own
                && (edge.idle == 0 || edge.source == edge.target)
        })
}

/// Literals and updates may share nodes or leave them out; as an operand a node stands once at most.
fn nodes_kept(table: &RawTable) -> bool {
    let assigned = table.updates.iter().filter(|update| update.deed == ASSIGN).map(|update| update.node);
    operands_lower_and_sorted(&table.nodes)
        && table.guards().all(|node| gives(&table.nodes, node, Sort::Truth))
        && assigned.map(usize::from).all(|node| gives(&table.nodes, node, Sort::Number))
        && operand_uses(&table.nodes).iter().all(|count| *count <= 1)
}
