//! An accepted automata file, decoded once for many calls.

use super::check;
use super::raw::{RawLiteral, RawTable};
use crate::deeds::{Deed, GuardedDeed};
use crate::expressions::Node;
use crate::files::Sections;
use crate::records::*;
use crate::refusals::{Refusal, AUTOMATA_FILE};
use crate::timing::{Clock, Timing};
use crate::variables::Variable;

#[derive(Clone, Copy, Debug, PartialEq, Eq)]
pub enum LiteralTrigger {
    None,
    Event(u8),
    Clock(u16),
}

#[derive(Clone, Copy, Debug)]
pub struct Literal {
    pub must_hold: bool,
    pub trigger: LiteralTrigger,
    pub guard: Option<u16>,
}

#[derive(Clone, Debug)]
pub struct Edge {
    pub source: u16,
    pub target: u16,
    pub idle: bool,
    /// In file order, as are the updates and resets.
    pub literals: Vec<Literal>,
    pub updates: Vec<GuardedDeed>,
    pub resets: Vec<u16>,
}

#[derive(Clone, Debug)]
pub struct AutomataTable {
    /// The initial location of each automaton.
    pub initial: Vec<u16>,
    /// The automaton of each location.
    pub automaton_of: Vec<u8>,
    pub edges: Vec<Edge>,
    /// For each location the leaving edges, ascending.
    pub leaving: Vec<Vec<u16>>,
    pub clocks: Vec<Clock>,
    pub variables: Vec<Variable>,
    pub nodes: Vec<Node>,
}

impl AutomataTable {
    /// Reads an automata file; whatever is wrong with it, the refusal is 11.
    pub fn read(bytes: &[u8]) -> Result<AutomataTable, Refusal> {
        let sections = Sections::read(bytes, &AUTOMATA_LIMITS).map_err(|_| AUTOMATA_FILE)?;
        if sections.has_stray_byte() {
            return Err(AUTOMATA_FILE);
        }
        let raw = RawTable::decode(&sections);
        if !check::accepted(&raw) {
            return Err(AUTOMATA_FILE);
        }
        Ok(AutomataTable::prepare(raw))
    }

    fn prepare(raw: RawTable) -> AutomataTable {
        let edges = prepare_edges(&raw);
        let mut leaving = vec![Vec::new(); raw.automaton_of.len()];
        for (number, edge) in (0u16..).zip(&edges) {
            leaving[usize::from(edge.source)].push(number);
        }
        let clock =
            |(trigger, ticks): &(u8, u16)| Clock { timing: Timing::of_trigger(*trigger), ticks: *ticks };
        AutomataTable {
            edges,
            leaving,
            clocks: raw.clocks.iter().map(clock).collect(),
            initial: raw.initial,
            automaton_of: raw.automaton_of,
            variables: raw.variables,
            nodes: raw.nodes,
        }
    }

    pub fn automata(&self) -> usize {
        self.initial.len()
    }

    /// The clocks that literals of edges leaving a location read.
    pub fn clocks_read_at(&self, location: u16) -> impl Iterator<Item = u16> + '_ {
        let leaving = self.leaving[usize::from(location)].iter();
        let literals = leaving.flat_map(|edge| &self.edges[usize::from(*edge)].literals);
        literals.filter_map(|literal| match literal.trigger {
            LiteralTrigger::Clock(clock) => Some(clock),
            _ => None,
        })
    }
}

fn prepare_edges(raw: &RawTable) -> Vec<Edge> {
    let mut edges: Vec<Edge> = raw
        .edges
        .iter()
        .map(|edge| Edge {
            source: edge.source,
            target: edge.target,
            idle: edge.idle == 1,
            literals: Vec::new(),
            updates: Vec::new(),
            resets: Vec::new(),
        })
        .collect();
    for literal in &raw.literals {
        edges[usize::from(literal.edge)].literals.push(Literal::prepare(literal));
    }
    for update in &raw.updates {
        let deed = Deed::from_codes(update.deed, update.variable_or_event, update.node);
        edges[usize::from(update.edge)].updates.push(GuardedDeed { guard: update.guard, deed });
    }
    for (edge, clock) in &raw.resets {
        edges[usize::from(*edge)].resets.push(*clock);
    }
    edges
}

impl Literal {
    fn prepare(raw: &RawLiteral) -> Literal {
        let trigger = match raw.trigger {
            NO_TRIGGER => LiteralTrigger::None,
            ON_EVENT => LiteralTrigger::Event(raw.event),
            _ => LiteralTrigger::Clock(raw.clock),
        };
        let guard = (raw.node != NONE).then_some(raw.node);
        Literal { must_hold: raw.sign == MUST_HOLD, trigger, guard }
    }
}
