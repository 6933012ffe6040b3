//! Valid chart sets in which due times often have to wait.

use super::times::time_from;
use crate::assemble::*;
use crate::chart_sets::SetParts;
use crate::deeds::Deed;
use crate::operators::*;
use crate::random::Random;
use crate::records::*;
use crate::variables::Variable;

/// One chart goes from state 1 to 2 after some ticks where the variable is 1, which the other chart
/// turns over at an event, before that chart's turn in a cycle or behind it. State 1 is entered anew by
/// an event at times, and from state 2 by any trigger.
pub fn waiting_set(random: &mut Random) -> Vec<u8> {
    let waits = random.u8_between(0, 1);
    let turns = 1 - waits;
    let initial = if waits == 0 { [0, 3] } else { [3, 0] };
    let mut events: Vec<u8> = (0..EVENTS).collect();
    random.shuffle(&mut events);
    let (sooner, later) = random.pick(&[(1, 2), (2, 1), (1, 16), (16, 1)]);
    let mut transitions = vec![
        transition(1, 0, 1),
        guarded(after(transition(sooner, 1, 2), few_ticks(random)), 2),
        back(random, events[0]),
        transition(1, 3, 4),
        on_event(transition(1, 4, 4), events[1]),
    ];
    if random.chance(1, 2) {
        transitions.push(on_event(transition(later, 1, 1), events[2]));
    }
    SetParts {
        charts: initial.map(chart).to_vec(),
        states: [waits, waits, waits, turns, turns].map(state).to_vec(),
        transitions,
        variables: vec![Variable { lowest: 0, highest: 1, start: random.pick(&[0, 0, 1]) }],
        nodes: vec![
            variable_value(0),
            constant(1),
            operation(EQUAL, &[0, 1]),
            constant(1),
            variable_value(0),
            operation(DIFFERENCE, &[3, 4]),
        ],
        actions: vec![action(ON_TRANSITION, 4, Deed::Assign { variable: 0, node: 5 })],
    }
    .bytes()
}

/// State 2 is left for state 1.
fn back(random: &mut Random, event: u8) -> Record {
    let plain = transition(1, 2, 1);
    match random.below(4) {
        0 => on_event(plain, event),
        1 => after(plain, few_ticks(random)),
        2 => every(plain, few_ticks(random)),
        _ => plain,
    }
}

fn few_ticks(random: &mut Random) -> u32 {
    let whole_ticks = random.u32_between(0, 5);
    time_from(random, whole_ticks)
}
