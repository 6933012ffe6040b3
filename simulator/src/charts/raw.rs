//! The fields of a chart set as they stand in the records, before their meaning is checked.

use crate::expressions::Node;
use crate::files::Sections;
use crate::records::*;
use crate::variables::Variable;

#[derive(Clone, Copy, Debug)]
pub struct RawTransition {
    pub priority: u8,
    pub source: u16,
    pub target: u16,
    pub trigger: u8,
    pub event: u8,
    pub milliseconds: u32,
    pub guard: u16,
}

impl RawTransition {
    fn read(record: &Record) -> Self {
        RawTransition {
            priority: record[1],
            source: read_u16(record, 2),
            target: read_u16(record, 4),
            trigger: record[6],
            event: record[7],
            milliseconds: read_u32(record, 8),
            guard: read_u16(record, 12),
        }
    }

    pub fn timed(&self) -> bool {
        matches!(self.trigger, AFTER | EVERY)
    }
}

#[derive(Clone, Copy, Debug)]
pub struct RawAction {
    pub place: u8,
    pub owner: u16,
    pub deed: u8,
    pub variable_or_event: u8,
    pub node: u16,
    pub guard: Option<u16>,
    pub milliseconds: u32,
}

impl RawAction {
    fn read(record: &Record) -> Self {
        RawAction {
            place: record[1],
            owner: read_u16(record, 2),
            deed: record[4],
            variable_or_event: record[5],
            node: read_u16(record, 6),
            guard: deed_guard(record),
            milliseconds: read_u32(record, 12),
        }
    }

    pub fn of_state(&self) -> bool {
        matches!(self.place, ENTRY | EXIT | WAITING)
    }

    pub fn waits(&self) -> bool {
        self.place == WAITING
    }
}

pub struct RawSet {
    /// The initial state of each chart.
    pub initial: Vec<u16>,
    /// The chart of each state.
    pub chart_of: Vec<u8>,
    pub transitions: Vec<RawTransition>,
    pub variables: Vec<Variable>,
    pub nodes: Vec<Node>,
    pub node_records: Vec<Record>,
    pub actions: Vec<RawAction>,
}

impl RawSet {
    pub fn decode(sections: &Sections) -> Self {
        RawSet {
            initial: sections.of(CHART).iter().map(|record| read_u16(record, 2)).collect(),
            chart_of: sections.of(STATE).iter().map(|record| record[1]).collect(),
            transitions: sections.of(TRANSITION).iter().map(RawTransition::read).collect(),
            variables: sections.of(VARIABLE).iter().map(Variable::read).collect(),
            nodes: sections.of(NODE).iter().map(Node::read).collect(),
            node_records: sections.of(NODE).to_vec(),
            actions: sections.of(ACTION).iter().map(RawAction::read).collect(),
        }
    }

    pub fn leaving(&self, state: u16) -> impl Iterator<Item = &RawTransition> {
        self.transitions.iter().filter(move |transition| transition.source == state)
    }

    pub fn waiting_in(&self, state: u16) -> impl Iterator<Item = &RawAction> {
        self.actions.iter().filter(move |action| action.waits() && action.owner == state)
    }

    /// The milliseconds of timing triggers and of waiting actions.
    pub fn times(&self) -> impl Iterator<Item = u32> + '_ {
        let of_triggers = self.transitions.iter().filter(|transition| transition.timed());
        let of_actions = self.actions.iter().filter(|action| action.waits());
        of_triggers.map(|transition| transition.milliseconds).chain(of_actions.map(|a| a.milliseconds))
    }
}
