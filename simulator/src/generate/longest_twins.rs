//! Sets whose twins are nearly as long as a set allows: in one chart fifteen states with sixteen timed transitions each, and one
//! with those that are left, all into one state; every state has a waiting action. So an edge has up to fifteen negations, all the
//! clocks of that state to reset, and the actions of leaving, of its own and of entering.

use super::times::time_from;
use crate::assemble::*;
use crate::deeds::Deed;
use crate::expressions::Node;
use crate::operators::{EQUAL, SUM};
use crate::random::Random;
use crate::records::*;
use crate::variables::Variable;

/// The state that all timed transitions enter, and the last that they leave.
const ENTERED: u16 = 1;
const LAST_SOURCE: u16 = 16;
/// How many transitions and actions have a guard.
const GUARDED: usize = 120;
const GUARDED_ACTIONS: usize = 50;

/// The length in bytes of the twin of each set with the most of each kind.
pub const LENGTH: usize = 207_536;

/// With the most of each kind.
pub fn longest(random: &mut Random) -> Vec<u8> {
    full(random, 8)
}

/// With one chart and the most of each other kind: its twin has as many edges and resets as there may be.
pub fn most_resets(random: &mut Random) -> Vec<u8> {
    full(random, 1)
}

fn full(random: &mut Random, charts: u8) -> Vec<u8> {
    let mut nodes: Vec<Node> = Vec::new();
    let transitions = transitions(random, &mut nodes, charts);
    let owners = owners(random);
    let mut actions: Vec<Record> = owners.iter().map(|owner| act(random, &mut nodes, *owner)).collect();
    for action in &mut actions[..GUARDED_ACTIONS] {
        *action = done_if(*action, guard(random, &mut nodes));
    }
    let mut records: Vec<Record> = initial_states(charts).map(chart).collect();
    records.extend((0..first_states(charts)).map(|_| state(0)));
    records.extend((1..charts).flat_map(|own| [state(own), state(own)]));
    records.extend(transitions);
    records.extend((0..64).map(|_| variable(VARIABLE, &Variable { lowest: -9, highest: 9, start: 0 })));
    records.extend(nodes.iter().map(|one| node(NODE, one)));
    records.extend(actions);
    file(records)
}

/// How many states the first chart has; every other chart has its initial state and one more.
fn first_states(charts: u8) -> u16 {
    130 - 2 * u16::from(charts)
}

fn initial_states(charts: u8) -> impl Iterator<Item = u16> {
    [0].into_iter().chain((1..charts).map(move |own| first_states(charts) + 2 * (u16::from(own) - 1)))
}

/// Every source's priorities, and the plain transitions of the initial states, in any order.
fn transitions(random: &mut Random, nodes: &mut Vec<Node>, charts: u8) -> Vec<Record> {
    let plain = |state: u16| transition(HIGHEST_PRIORITY, state, state + 1);
    let mut all: Vec<Record> = initial_states(charts).map(plain).collect();
    for source in ENTERED..=LAST_SOURCE {
        let lowest = if source == LAST_SOURCE { LOWEST_PRIORITY - charts } else { LOWEST_PRIORITY };
        all.extend((HIGHEST_PRIORITY..=lowest).map(|priority| timed(random, priority, source)));
    }
    for transition in all.iter_mut().filter(|transition| transition[6] != NO_TRIGGER).take(GUARDED) {
        *transition = guarded(*transition, guard(random, nodes));
    }
    random.shuffle(&mut all);
    all
}

fn timed(random: &mut Random, priority: u8, source: u16) -> Record {
    let plain = transition(priority, source, ENTERED);
    let milliseconds = time(random);
    if random.chance(1, 2) {
        after(plain, milliseconds)
    } else {
        every(plain, milliseconds)
    }
}

fn time(random: &mut Random) -> u32 {
    let whole_ticks = random.u32_between(1, 29);
    time_from(random, whole_ticks)
}

fn push(nodes: &mut Vec<Node>, node: Node) -> u16 {
    nodes.push(node);
    u16::try_from(nodes.len() - 1).expect("at most 1,024")
}

fn guard(random: &mut Random, nodes: &mut Vec<Node>) -> u16 {
    let operands =
        [push(nodes, variable_value(random.index(64))), push(nodes, constant(random.pick(&[0, 1, 2])))];
    push(nodes, operation(EQUAL, &operands))
}

/// Each state waits, so it has room for seven more: entries of the state entered, exits of every other source. The rest is
/// at transitions.
fn owners(random: &mut Random) -> Vec<(u8, u16)> {
    let waiting = (0..128).map(|state| (WAITING, state));
    let entries = (0..7).map(|_| (ENTRY, ENTERED));
    let exits = (ENTERED + 1..=LAST_SOURCE).flat_map(|source| (0..7).map(move |_| (EXIT, source)));
    let mut owners: Vec<(u8, u16)> = waiting.chain(entries).chain(exits).collect();
    owners.extend((0..256).cycle().map(|number| (ON_TRANSITION, number)).take(512 - owners.len()));
    random.shuffle(&mut owners);
    owners
}

/// An assignment of a constant; the first one of a sum, which uses up the two nodes that are left.
fn act(random: &mut Random, nodes: &mut Vec<Node>, (place, owner): (u8, u16)) -> Record {
    let value = random.pick(&[-1, 0, 1, 2]);
    let assigned = if nodes.len() == 3 * GUARDED {
        let operands = [push(nodes, constant(value)), push(nodes, constant(1))];
        push(nodes, operation(SUM, &operands))
    } else {
        push(nodes, constant(value))
    };
    let done = action(place, owner, Deed::Assign { variable: random.u8_between(0, 63), node: assigned });
    if place == WAITING {
        return at_each(done, time(random));
    }
    done
}
