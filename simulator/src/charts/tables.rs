//! An accepted chart set, decoded once for many calls.

use super::check;
use super::raw::{RawSet, RawTransition};
use crate::deeds::{Deed, GuardedDeed};
use crate::expressions::Node;
use crate::files::Sections;
use crate::records::*;
use crate::refusals::{Refusal, STRAY_BYTE};
use crate::timing::{ticks, Timing};
use crate::variables::Variable;

#[derive(Clone, Copy, Debug, PartialEq, Eq)]
pub enum Trigger {
    None,
    Event(u8),
    Timed(Timing, u32),
}

#[derive(Clone, Copy, Debug)]
pub struct Transition {
    pub priority: u8,
    pub source: u16,
    pub target: u16,
    pub trigger: Trigger,
    pub guard: Option<u16>,
}

/// What a state does at each positive multiple of the ticks while it idles.
#[derive(Clone, Debug)]
pub struct Waiting {
    pub ticks: u32,
    /// In file order.
    pub deeds: Vec<GuardedDeed>,
}

#[derive(Clone, Debug)]
pub struct ChartSet {
    /// The initial state of each chart.
    pub initial: Vec<u16>,
    /// The chart of each state.
    pub chart_of: Vec<u8>,
    pub transitions: Vec<Transition>,
    /// For each state the leaving transitions, by priority.
    pub rows: Vec<Vec<u16>>,
    pub variables: Vec<Variable>,
    pub nodes: Vec<Node>,
    pub node_records: Vec<Record>,
    /// Deeds by owner, in file order.
    pub entry: Vec<Vec<GuardedDeed>>,
    pub exit: Vec<Vec<GuardedDeed>>,
    pub on_transition: Vec<Vec<GuardedDeed>>,
    /// For each state its waiting actions, if it has any.
    pub waiting: Vec<Option<Waiting>>,
}

impl ChartSet {
    /// Reads a chart file; refused with the lowest number of 1 to 9 and 25 that applies.
    pub fn read(bytes: &[u8]) -> Result<ChartSet, Refusal> {
        let sections = Sections::read(bytes, &CHART_LIMITS)?;
        if sections.has_stray_byte() {
            return Err(STRAY_BYTE);
        }
        let raw = RawSet::decode(&sections);
        check::refuse(&raw)?;
        Ok(ChartSet::prepare(raw))
    }

    fn prepare(raw: RawSet) -> ChartSet {
        let states = raw.chart_of.len();
        ChartSet {
            rows: (0..states).map(|state| row_by_priority(&raw, state)).collect(),
            entry: deeds_by_owner(&raw, ENTRY, states),
            exit: deeds_by_owner(&raw, EXIT, states),
            on_transition: deeds_by_owner(&raw, ON_TRANSITION, raw.transitions.len()),
            waiting: (0u16..)
                .zip(deeds_by_owner(&raw, WAITING, states))
                .map(|(state, deeds)| waiting(&raw, state, deeds))
                .collect(),
            transitions: raw.transitions.iter().map(Transition::prepare).collect(),
            initial: raw.initial,
            chart_of: raw.chart_of,
            variables: raw.variables,
            nodes: raw.nodes,
            node_records: raw.node_records,
        }
    }

    pub fn charts(&self) -> usize {
        self.initial.len()
    }

    /// Exit actions of the source, the transition's, entry actions of the target.
    pub fn deeds_of(&self, transition: usize) -> impl Iterator<Item = &GuardedDeed> {
        let Transition { source, target, .. } = self.transitions[transition];
        self.exit[usize::from(source)]
            .iter()
            .chain(&self.on_transition[transition])
            .chain(&self.entry[usize::from(target)])
    }
}

impl Transition {
    fn prepare(raw: &RawTransition) -> Transition {
        let trigger = match raw.trigger {
            NO_TRIGGER => Trigger::None,
            ON_EVENT => Trigger::Event(raw.event),
            timed => Trigger::Timed(Timing::of_trigger(timed), ticks(raw.milliseconds)),
        };
        let guard = (raw.guard != NONE).then_some(raw.guard);
        Transition { priority: raw.priority, source: raw.source, target: raw.target, trigger, guard }
    }
}

/// Smaller priorities go first; those leaving one state differ.
fn row_by_priority(raw: &RawSet, state: usize) -> Vec<u16> {
    let mut row: Vec<u16> = (0u16..)
        .zip(&raw.transitions)
        .filter(|(_, transition)| usize::from(transition.source) == state)
        .map(|(number, _)| number)
        .collect();
    row.sort_by_key(|number| raw.transitions[usize::from(*number)].priority);
    row
}

/// The milliseconds of a state's waiting actions are the same.
fn waiting(raw: &RawSet, state: u16, deeds: Vec<GuardedDeed>) -> Option<Waiting> {
    let first = raw.waiting_in(state).next()?;
    Some(Waiting { ticks: ticks(first.milliseconds), deeds })
}

fn deeds_by_owner(raw: &RawSet, place: u8, owners: usize) -> Vec<Vec<GuardedDeed>> {
    let mut deeds = vec![Vec::new(); owners];
    for action in raw.actions.iter().filter(|action| action.place == place) {
        let deed = Deed::from_codes(action.deed, action.variable_or_event, action.node);
        deeds[usize::from(action.owner)].push(GuardedDeed { guard: action.guard, deed });
    }
    deeds
}
