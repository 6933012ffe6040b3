//! Valid chart sets whose states act while they idle.

use super::guarded_sets::{variables, Maker};
use super::times::time_from;
use crate::assemble::*;
use crate::chart_sets::SetParts;
use crate::random::Random;
use crate::records::*;

/// One chart stays in states 1 and 2 for a while and acts there each few ticks; the other answers the event that actions
/// raise, later in the cycle or, having its turn first, never. The initial state has waiting actions too, at times.
pub fn idling_set(random: &mut Random) -> Vec<u8> {
    let idles = random.u8_between(0, 1);
    let answers = 1 - idles;
    let mut events: Vec<u8> = (0..EVENTS).collect();
    random.shuffle(&mut events);
    // A waiting action that faults holds the run up until the state is left, so daring sets are few.
    let mut maker = Maker::new(random, events[0], 5);
    let mut transitions = vec![
        transition(1, 0, 1),
        leaves(&mut maker, transition(2, 1, 2), events[1]),
        leaves(&mut maker, transition(1, 2, 1), events[2]),
        transition(1, 3, 4),
        on_event(transition(1, 4, 4), events[0]),
    ];
    if maker.random.chance(1, 2) {
        transitions.push(leaves(&mut maker, transition(1, 1, 1), events[3]));
    }
    let mut actions: Vec<Record> =
        [0, 1, 2, 4].into_iter().flat_map(|state| waiting(&mut maker, state)).collect();
    let owners = [(ENTRY, 1), (EXIT, 2), (ON_TRANSITION, 4)];
    actions.extend(owners.into_iter().flat_map(|(place, owner)| maker.actions(place, owner)));
    let nodes = maker.nodes;
    random.shuffle(&mut actions);
    SetParts {
        charts: (if idles == 0 { [0, 3] } else { [3, 0] }).map(chart).to_vec(),
        states: [idles, idles, idles, answers, answers].map(state).to_vec(),
        transitions,
        variables: variables(random),
        nodes,
        actions,
    }
    .bytes()
}

/// By an event where a guard holds, or by a time, which may fall on one at which waiting actions are due.
fn leaves(maker: &mut Maker, plain: Record, event: u8) -> Record {
    let whole_ticks = maker.random.u32_between(2, 12);
    let time = time_from(maker.random, whole_ticks);
    match maker.random.below(6) {
        0 => on_event(plain, event),
        1 => after(plain, time),
        2 => every(plain, time),
        3 => guarded(every(plain, time), maker.guard()),
        _ => guarded(on_event(plain, event), maker.guard()),
    }
}

/// A state's waiting actions, done each 2 to 5 ticks, or none.
fn waiting(maker: &mut Maker, state: u16) -> Vec<Record> {
    let count = match state {
        1 => maker.random.pick(&[1, 2, 3, 4]),
        2 => maker.random.pick(&[0, 1, 2]),
        _ => maker.random.pick(&[0, 0, 1]),
    };
    let whole_ticks = maker.random.u32_between(2, 4);
    let time = time_from(maker.random, whole_ticks);
    (0..count).map(|_| at_each(maker.action(WAITING, state), time)).collect()
}
