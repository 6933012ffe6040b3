//! The translation of a chart set into its automata twin.

use crate::assemble;
use crate::charts::{ChartSet, Transition, Trigger, Waiting};
use crate::deeds::GuardedDeed;
use crate::records::*;
use crate::refusals::{Refusal, BUFFER};
use crate::timing::{Clock, Timing};
use std::ops::Range;

/// Writes the twin of a set into a lent buffer. The answer is its length; bytes beyond are kept,
/// and on a refusal (1 to 9, 25, then 10) all of them.
pub fn translate(set: &[u8], out: &mut [u8]) -> Result<usize, Refusal> {
    let twin = twin(&ChartSet::read(set)?);
    let Some(place) = out.get_mut(..twin.len()) else {
        return Err(BUFFER);
    };
    place.copy_from_slice(&twin);
    Ok(twin.len())
}

/// The bytes of the twin of an accepted set.
pub fn twin(set: &ChartSet) -> Vec<u8> {
    let numbers = Numbers::of(set);
    let mut records: Vec<Record> = Vec::new();
    records.extend(set.initial.iter().map(|initial| assemble::automaton(*initial)));
    records.extend(set.chart_of.iter().map(|chart| assemble::location(*chart)));
    records.extend(edges(set, &numbers));
    records.extend(literals(set, &numbers));
    records.extend(clocks(set).iter().map(assemble::clock));
    records.extend(set.variables.iter().map(|variable| assemble::variable(TWIN_VARIABLE, variable)));
    records.extend(set.node_records.iter().map(copied_node));
    records.extend(updates(set, &numbers));
    records.extend(resets(set, &numbers));
    assemble::file(records)
}

fn copied_node(record: &Record) -> Record {
    let mut copy = *record;
    copy[0] = TWIN_NODE;
    copy
}

/// The idle edges of each state, which follow the transitions' in state order: one, or two where it has waiting actions, of
/// which the first is due.
pub fn idle_edges(set: &ChartSet) -> Vec<Range<u16>> {
    let mut next = u16::try_from(set.transitions.len()).expect("at most 256");
    let edges = |waiting: &Option<Waiting>| {
        let first = next;
        next += if waiting.is_some() { 2 } else { 1 };
        first..next
    };
    set.waiting.iter().map(edges).collect()
}

/// The numbers that clocks and idle edges get.
struct Numbers {
    /// The clock of each transition with a timing trigger.
    trigger_clocks: Vec<Option<u16>>,
    /// The clock of each state with waiting actions; all of them come after the transitions'.
    waiting_clocks: Vec<Option<u16>>,
    idle: Vec<Range<u16>>,
}

impl Numbers {
    fn of(set: &ChartSet) -> Numbers {
        let mut next = 0u16;
        let mut number = |has_clock: bool| {
            has_clock.then(|| {
                next += 1;
                next - 1
            })
        };
        let timed = |transition: &Transition| matches!(transition.trigger, Trigger::Timed(..));
        Numbers {
            trigger_clocks: set.transitions.iter().map(|transition| number(timed(transition))).collect(),
            waiting_clocks: set.waiting.iter().map(|waiting| number(waiting.is_some())).collect(),
            idle: idle_edges(set),
        }
    }
}

/// One per transition, in order, then the idle edges.
fn edges(set: &ChartSet, numbers: &Numbers) -> Vec<Record> {
    let chart = |state: u16| set.chart_of[usize::from(state)];
    let taken = set.transitions.iter().map(|t| assemble::edge(chart(t.source), t.source, t.target, false));
    let idle = (0u16..).zip(&numbers.idle).flat_map(|(state, own)| {
        let edge = assemble::edge(chart(state), state, state, true);
        own.clone().map(move |_| edge)
    });
    taken.chain(idle).collect()
}

/// One per timing trigger, then an every-clock per state with waiting actions.
fn clocks(set: &ChartSet) -> Vec<Clock> {
    let clock = |timing, ticks| Clock { timing, ticks: u16::try_from(ticks).expect("at most 36,000") };
    let timed = |transition: &Transition| match transition.trigger {
        Trigger::Timed(timing, ticks) => Some(clock(timing, ticks)),
        _ => None,
    };
    let waiting = set.waiting.iter().flatten().map(|waiting| clock(Timing::Every, waiting.ticks));
    set.transitions.iter().filter_map(timed).chain(waiting).collect()
}

/// Negations of the transitions of higher priority come first, then the edge's own literal; an
/// idle edge has the negations of all that leave its state, then the waiting clock, if there is one.
fn literals(set: &ChartSet, numbers: &Numbers) -> Vec<Record> {
    let mut records = Vec::new();
    for (number, transition) in (0u16..).zip(&set.transitions) {
        let row = &set.rows[usize::from(transition.source)];
        let higher = row.iter().take_while(|other| **other != number);
        records.extend(higher.map(|other| literal(set, numbers, MUST_NOT, number, *other)));
        records.push(literal(set, numbers, MUST_HOLD, number, number));
    }
    for (state, row) in set.rows.iter().enumerate() {
        let own = &numbers.idle[state];
        for edge in own.clone() {
            records.extend(row.iter().map(|other| literal(set, numbers, MUST_NOT, edge, *other)));
            let sign = if edge == own.start { MUST_HOLD } else { MUST_NOT };
            let due = |clock| assemble::reads_clock(assemble::literal(sign, edge, NONE), clock);
            records.extend(numbers.waiting_clocks[state].map(due));
        }
    }
    records
}

/// The literal of an edge that reads the trigger and guard of a transition.
fn literal(set: &ChartSet, numbers: &Numbers, sign: u8, edge: u16, transition: u16) -> Record {
    let number = usize::from(transition);
    let Transition { trigger, guard, .. } = set.transitions[number];
    let plain = assemble::literal(sign, edge, guard.unwrap_or(NONE));
    match (trigger, numbers.trigger_clocks[number]) {
        (Trigger::Event(event), _) => assemble::reads_event(plain, event),
        (Trigger::Timed(..), Some(clock)) => assemble::reads_clock(plain, clock),
        _ => plain,
    }
}

/// By edge: exit, transition, entry; of a due edge the waiting actions. Other idle edges have none.
fn updates(set: &ChartSet, numbers: &Numbers) -> Vec<Record> {
    let taken = (0u16..)
        .take(set.transitions.len())
        .flat_map(|edge| set.deeds_of(usize::from(edge)).map(move |deed| update(edge, deed)));
    let due = set.waiting.iter().zip(&numbers.idle).flat_map(|(waiting, own)| {
        let deeds = waiting.iter().flat_map(|waiting| &waiting.deeds);
        deeds.map(|deed| update(own.start, deed))
    });
    taken.chain(due).collect()
}

/// An update carries its action's guard.
fn update(edge: u16, GuardedDeed { guard, deed }: &GuardedDeed) -> Record {
    let plain = assemble::update(edge, *deed);
    guard.map_or(plain, |guard| assemble::done_if(plain, guard))
}

/// By edge, then clock: all clocks of transitions leaving the target, and its waiting clock. Idle edges have none.
fn resets(set: &ChartSet, numbers: &Numbers) -> Vec<Record> {
    let mut records = Vec::new();
    for (edge, transition) in (0u16..).zip(&set.transitions) {
        let target = usize::from(transition.target);
        let of_triggers = set.rows[target].iter().filter_map(|t| numbers.trigger_clocks[usize::from(*t)]);
        let mut started: Vec<u16> = of_triggers.chain(numbers.waiting_clocks[target]).collect();
        started.sort_unstable();
        records.extend(started.into_iter().map(|clock| assemble::reset(edge, clock)));
    }
    records
}
