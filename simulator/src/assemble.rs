//! Records put together field by field: used by the translation, the named sets and the generators.

use crate::deeds::Deed;
use crate::expressions::Node;
use crate::operators::{CONSTANT, VARIABLE_VALUE};
use crate::records::*;
use crate::timing::{Clock, Timing};
use crate::variables::Variable;

fn of_kind(kind: u8) -> Record {
    let mut record = [0; RECORD_LEN];
    record[0] = kind;
    record
}

pub fn chart(initial: u16) -> Record {
    let mut record = of_kind(CHART);
    write_u16(&mut record, 2, initial);
    record
}

pub fn state(chart: u8) -> Record {
    let mut record = of_kind(STATE);
    record[1] = chart;
    record
}

/// A transition without trigger or guard.
pub fn transition(priority: u8, source: u16, target: u16) -> Record {
    let mut record = of_kind(TRANSITION);
    record[1] = priority;
    write_u16(&mut record, 2, source);
    write_u16(&mut record, 4, target);
    write_u16(&mut record, 12, NONE);
    record
}

pub fn on_event(mut transition: Record, event: u8) -> Record {
    transition[6] = ON_EVENT;
    transition[7] = event;
    transition
}

pub fn after(mut transition: Record, milliseconds: u32) -> Record {
    transition[6] = AFTER;
    write_u32(&mut transition, 8, milliseconds);
    transition
}

pub fn every(mut transition: Record, milliseconds: u32) -> Record {
    transition[6] = EVERY;
    write_u32(&mut transition, 8, milliseconds);
    transition
}

pub fn guarded(mut transition: Record, node: u16) -> Record {
    write_u16(&mut transition, 12, node);
    transition
}

/// Kind 4 or 38.
pub fn variable(kind: u8, variable: &Variable) -> Record {
    let mut record = of_kind(kind);
    write_i16(&mut record, 2, variable.lowest);
    write_i16(&mut record, 4, variable.highest);
    write_i16(&mut record, 6, variable.start);
    record
}

/// Kind 5 or 39.
pub fn node(kind: u8, node: &Node) -> Record {
    let mut record = of_kind(kind);
    record[1] = node.operator;
    for (place, operand) in node.operands.iter().enumerate() {
        write_u16(&mut record, 2 + 2 * place, *operand);
    }
    write_i32(&mut record, 8, node.constant);
    record
}

pub fn constant(value: i32) -> Node {
    Node { operator: CONSTANT, constant: value, ..Node::default() }
}

pub fn variable_value(number: u16) -> Node {
    Node { operator: VARIABLE_VALUE, operands: [number, 0, 0], ..Node::default() }
}

/// An operator over node operands; unused places are zero.
pub fn operation(operator: u8, operands: &[u16]) -> Node {
    let mut node = Node { operator, ..Node::default() };
    node.operands[..operands.len()].copy_from_slice(operands);
    node
}

pub fn action(place: u8, owner: u16, deed: Deed) -> Record {
    let mut record = of_kind(ACTION);
    record[1] = place;
    write_u16(&mut record, 2, owner);
    let (code, variable_or_event, node) = deed_codes(deed);
    record[4] = code;
    record[5] = variable_or_event;
    write_u16(&mut record, 6, node);
    record
}

/// A waiting action, done at each multiple of the milliseconds.
pub fn at_each(mut action: Record, milliseconds: u32) -> Record {
    write_u32(&mut action, 12, milliseconds);
    action
}

/// An action or update that is done only where the guard holds.
pub fn done_if(mut record: Record, guard: u16) -> Record {
    write_u16(&mut record, 8, guard + 1);
    record
}

pub fn automaton(initial: u16) -> Record {
    let mut record = of_kind(AUTOMATON);
    write_u16(&mut record, 2, initial);
    record
}

pub fn location(automaton: u8) -> Record {
    let mut record = of_kind(LOCATION);
    record[1] = automaton;
    record
}

pub fn edge(automaton: u8, source: u16, target: u16, idle: bool) -> Record {
    let mut record = of_kind(EDGE);
    record[1] = automaton;
    write_u16(&mut record, 2, source);
    write_u16(&mut record, 4, target);
    record[6] = u8::from(idle);
    record
}

/// A literal without trigger; `guard` is a node or 65,535.
pub fn literal(sign: u8, edge: u16, guard: u16) -> Record {
    let mut record = of_kind(LITERAL);
    record[1] = sign;
    write_u16(&mut record, 2, edge);
    write_u16(&mut record, 8, guard);
    record
}

pub fn reads_event(mut literal: Record, event: u8) -> Record {
    literal[4] = ON_EVENT;
    literal[5] = event;
    literal
}

pub fn reads_clock(mut literal: Record, clock: u16) -> Record {
    literal[4] = ON_CLOCK;
    write_u16(&mut literal, 6, clock);
    literal
}

pub fn clock(clock: &Clock) -> Record {
    let mut record = of_kind(CLOCK);
    record[1] = match clock.timing {
        Timing::After => AFTER,
        Timing::Every => EVERY,
    };
    write_u16(&mut record, 2, clock.ticks);
    record
}

pub fn update(edge: u16, deed: Deed) -> Record {
    let mut record = of_kind(UPDATE);
    let (code, variable_or_event, node) = deed_codes(deed);
    record[1] = code;
    write_u16(&mut record, 2, edge);
    record[4] = variable_or_event;
    write_u16(&mut record, 6, node);
    record
}

pub fn reset(edge: u16, clock: u16) -> Record {
    let mut record = of_kind(RESET);
    write_u16(&mut record, 2, edge);
    write_u16(&mut record, 4, clock);
    record
}

fn deed_codes(deed: Deed) -> (u8, u8, u16) {
    match deed {
        Deed::Assign { variable, node } => (ASSIGN, variable, node),
        Deed::Raise { event } => (RAISE, event, 0),
    }
}

/// Records as the bytes of a file.
pub fn file(records: impl IntoIterator<Item = Record>) -> Vec<u8> {
    records.into_iter().flatten().collect()
}
