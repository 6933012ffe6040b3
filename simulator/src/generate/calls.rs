//! Lists of calls: turns and cycles, each with its input events.

use crate::automata::{AutomataTable, LiteralTrigger};
use crate::charts::{ChartSet, Trigger};
use crate::deeds::{Deed, GuardedDeed};
use crate::random::Random;
use crate::refusals::Refusal;
use crate::runs::Machine;
use crate::runs::{Answer, AutomataRun, ChartsRun};

#[derive(Clone, Copy, Debug, PartialEq, Eq)]
pub enum Call {
    Turn(u32),
    Cycle(u32),
}

/// What a call answered: a turn's answer, or that the cycle is done.
#[derive(Clone, Copy, Debug, PartialEq, Eq)]
pub enum CallAnswer {
    Turn(Answer),
    Done,
}

impl Call {
    pub fn on_charts(self, set: &ChartSet, run: &mut ChartsRun) -> Result<CallAnswer, Refusal> {
        match self {
            Call::Turn(events) => set.turn(run, events).map(CallAnswer::Turn),
            Call::Cycle(events) => set.cycle(run, events).map(|()| CallAnswer::Done),
        }
    }

    pub fn on_automata(self, table: &AutomataTable, run: &mut AutomataRun) -> Result<CallAnswer, Refusal> {
        match self {
            Call::Turn(events) => table.turn(run, events).map(CallAnswer::Turn),
            Call::Cycle(events) => table.cycle(run, events).map(|()| CallAnswer::Done),
        }
    }
}

/// The events a set knows of, from its triggers and raises.
pub fn events_of_set(set: &ChartSet) -> u32 {
    let triggers = set.transitions.iter().filter_map(|transition| match transition.trigger {
        Trigger::Event(event) => Some(event),
        _ => None,
    });
    let placed = set.entry.iter().chain(&set.exit).chain(&set.on_transition).flatten();
    let deeds = placed.chain(set.waiting.iter().flatten().flat_map(|waiting| &waiting.deeds));
    triggers.chain(raised(deeds)).fold(0, |mask, event| mask | 1 << event)
}

pub fn events_of_table(table: &AutomataTable) -> u32 {
    let literals = table.edges.iter().flat_map(|edge| &edge.literals);
    let triggers = literals.filter_map(|literal| match literal.trigger {
        LiteralTrigger::Event(event) => Some(event),
        _ => None,
    });
    let deeds = table.edges.iter().flat_map(|edge| &edge.updates);
    triggers.chain(raised(deeds)).fold(0, |mask, event| mask | 1 << event)
}

fn raised<'a>(deeds: impl Iterator<Item = &'a GuardedDeed> + 'a) -> impl Iterator<Item = u8> + 'a {
    deeds.filter_map(|deed| match deed.deed {
        Deed::Raise { event } => Some(event),
        Deed::Assign { .. } => None,
    })
}

/// An event mask: mostly some of the known events, at times none, others or all.
pub fn mask(random: &mut Random, known: u32) -> u32 {
    let some = u32::try_from(random.next_u64() >> 32).expect("32 bits");
    let others = u32::try_from(random.next_u64() >> 32).expect("32 bits");
    match random.below(8) {
        0 => 0,
        1 => some,
        2 => u32::MAX,
        3 => known,
        4 | 5 => known & some & others,
        _ => known & some,
    }
}

/// Calls for `n` charts. Events are given where position 1 is due if no call faults, and at
/// times elsewhere. Some lists have long quiet spells, in which states are not left by events.
pub fn call_list(random: &mut Random, n: usize, known: u32, length: usize) -> Vec<Call> {
    let mut calls = Vec::new();
    let mut position = 1;
    let turns = random.pick(&[0, 1, 3, 4]);
    let quiet = random.pick(&[0, 0, 0, 7]);
    for _ in 0..length {
        let wrong = random.chance(1, 24);
        let given = wrong || position == 1 && !random.chance(quiet, 8);
        let events = if given { mask(random, known) } else { 0 };
        if random.chance(turns, 4) {
            calls.push(Call::Turn(events));
            position = if position == n + 1 { 1 } else { position + 1 };
        } else {
            calls.push(Call::Cycle(events));
            position = 1;
        }
    }
    calls
}
