//! The fields of an automata file as they stand in the records.

use crate::expressions::Node;
use crate::files::Sections;
use crate::records::*;
use crate::variables::Variable;

#[derive(Clone, Copy, Debug)]
pub struct RawEdge {
    pub automaton: u8,
    pub source: u16,
    pub target: u16,
    pub idle: u8,
}

#[derive(Clone, Copy, Debug)]
pub struct RawLiteral {
    pub sign: u8,
    pub edge: u16,
    pub trigger: u8,
    pub event: u8,
    pub clock: u16,
    pub node: u16,
}

#[derive(Clone, Copy, Debug)]
pub struct RawUpdate {
    pub deed: u8,
    pub edge: u16,
    pub variable_or_event: u8,
    pub node: u16,
    pub guard: Option<u16>,
}

pub struct RawTable {
    /// The initial location of each automaton.
    pub initial: Vec<u16>,
    /// The automaton of each location.
    pub automaton_of: Vec<u8>,
    pub edges: Vec<RawEdge>,
    pub literals: Vec<RawLiteral>,
    /// Timing trigger code and ticks of each clock.
    pub clocks: Vec<(u8, u16)>,
    pub variables: Vec<Variable>,
    pub nodes: Vec<Node>,
    pub updates: Vec<RawUpdate>,
    /// Edge and clock of each reset.
    pub resets: Vec<(u16, u16)>,
}

impl RawTable {
    pub fn decode(sections: &Sections) -> Self {
        RawTable {
            initial: sections.of(AUTOMATON).iter().map(|record| read_u16(record, 2)).collect(),
            automaton_of: sections.of(LOCATION).iter().map(|record| record[1]).collect(),
            edges: sections.of(EDGE).iter().map(read_edge).collect(),
            literals: sections.of(LITERAL).iter().map(read_literal).collect(),
            clocks: sections.of(CLOCK).iter().map(|record| (record[1], read_u16(record, 2))).collect(),
            variables: sections.of(TWIN_VARIABLE).iter().map(Variable::read).collect(),
            nodes: sections.of(TWIN_NODE).iter().map(Node::read).collect(),
            updates: sections.of(UPDATE).iter().map(read_update).collect(),
            resets: sections.of(RESET).iter().map(|r| (read_u16(r, 2), read_u16(r, 4))).collect(),
        }
    }

    /// The guards of literals and of updates.
    pub fn guards(&self) -> impl Iterator<Item = usize> + '_ {
        let of_literals = self.literals.iter().map(|literal| literal.node).filter(|node| *node != NONE);
        of_literals.chain(self.updates.iter().filter_map(|update| update.guard)).map(usize::from)
    }
}

fn read_edge(record: &Record) -> RawEdge {
    RawEdge {
        automaton: record[1],
        source: read_u16(record, 2),
        target: read_u16(record, 4),
        idle: record[6],
    }
}

fn read_literal(record: &Record) -> RawLiteral {
    RawLiteral {
        sign: record[1],
        edge: read_u16(record, 2),
        trigger: record[4],
        event: record[5],
        clock: read_u16(record, 6),
        node: read_u16(record, 8),
    }
}

fn read_update(record: &Record) -> RawUpdate {
    RawUpdate {
        deed: record[1],
        edge: read_u16(record, 2),
        variable_or_event: record[4],
        node: read_u16(record, 6),
        guard: deed_guard(record),
    }
}
