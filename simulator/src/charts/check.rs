//! Refusals 5 to 9, and 25, of a chart set. Each is asked of the whole file before the next.

use super::raw::{RawAction, RawSet, RawTransition};
use crate::node_rules::{gives, names_something, node_operands, operand_uses, operands_lower_and_sorted};
use crate::operators::{shape, Sort};
use crate::records::*;
use crate::refusals::{self, Refusal};
use crate::timing::ticks;

/// Whether a set keeps what one refusal asks.
type Condition = fn(&RawSet) -> bool;

/// Asked in this order, so that a condition may rely on those before it: numbers are followed
/// only where they name something.
const CONDITIONS: [(Condition, Refusal); 6] = [
    (codes_and_ranges, refusals::CODE_OR_RANGE),
    (names, refusals::NAMES_NOTHING),
    (structure, refusals::STRUCTURE),
    (node_rules, refusals::NODES),
    (ticks_positive, refusals::ZERO_TICKS),
    (waiting_times_equal, refusals::WAITING_TIMES),
];

/// The lowest refusal from 5 on that applies.
pub fn refuse(set: &RawSet) -> Result<(), Refusal> {
    match CONDITIONS.iter().find(|(kept, _)| !kept(set)) {
        Some((_, number)) => Err(*number),
        None => Ok(()),
    }
}

fn codes_and_ranges(set: &RawSet) -> bool {
    set.transitions.iter().all(transition_codes)
        && set.variables.iter().all(|variable| variable.well_ranged())
        && set.nodes.iter().all(|node| shape(node.operator).is_some())
        && set.actions.iter().all(action_codes)
}

fn transition_codes(transition: &RawTransition) -> bool {
    let trigger_kept = match transition.trigger {
        NO_TRIGGER => true,
        ON_EVENT => transition.event < EVENTS,
        AFTER | EVERY => in_range(transition.milliseconds),
        _ => false,
    };
    (HIGHEST_PRIORITY..=LOWEST_PRIORITY).contains(&transition.priority) && trigger_kept
}

fn in_range(milliseconds: u32) -> bool {
    (1..=MOST_MILLISECONDS).contains(&milliseconds)
}

fn action_codes(action: &RawAction) -> bool {
    let deed_kept = match action.deed {
        ASSIGN => true,
        RAISE => action.variable_or_event < EVENTS,
        _ => false,
    };
    let place_kept = match action.place {
        ENTRY | EXIT | ON_TRANSITION => true,
        WAITING => in_range(action.milliseconds),
        _ => false,
    };
    place_kept && deed_kept
}

/// Numbers name something. Under a broken code a number has no meaning, but then 5 applies.
fn names(set: &RawSet) -> bool {
    let (states, charts, nodes) = (set.chart_of.len(), set.initial.len(), set.nodes.len());
    let state = |number: u16| usize::from(number) < states;
    set.initial.iter().all(|initial| state(*initial))
        && set.chart_of.iter().all(|chart| usize::from(*chart) < charts)
        && set.transitions.iter().all(|transition| {
            let guard_named = transition.guard == NONE || usize::from(transition.guard) < nodes;
            state(transition.source) && state(transition.target) && guard_named
        })
        && set.nodes.iter().all(|node| names_something(node, nodes, set.variables.len()))
        && set.actions.iter().all(|action| action_names(set, action))
}

fn action_names(set: &RawSet, action: &RawAction) -> bool {
    let owners = if action.of_state() { set.chart_of.len() } else { set.transitions.len() };
    let assignment_named = action.deed != ASSIGN
        || usize::from(action.variable_or_event) < set.variables.len()
            && usize::from(action.node) < set.nodes.len();
    let guard_named = action.guard.is_none_or(|guard| usize::from(guard) < set.nodes.len());
    usize::from(action.owner) < owners && assignment_named && guard_named
}

fn structure(set: &RawSet) -> bool {
    within_charts(set)
        && set.initial.iter().enumerate().all(|(chart, initial)| initial_kept(set, chart, *initial))
        && priorities_differ(set)
        && actions_per_owner(set)
}

fn within_charts(set: &RawSet) -> bool {
    let chart = |state: u16| set.chart_of[usize::from(state)];
    set.transitions.iter().all(|transition| chart(transition.source) == chart(transition.target))
}

/// An initial state is of its own chart, has one plain leaving transition, is not entered, and
/// has no entry or exit action. Waiting ones it may have.
fn initial_kept(set: &RawSet, chart: usize, initial: u16) -> bool {
    let of_its_chart = usize::from(set.chart_of[usize::from(initial)]) == chart;
    let leaving: Vec<&RawTransition> = set.leaving(initial).collect();
    let one_plain = match leaving[..] {
        [only] => only.trigger == NO_TRIGGER && only.guard == NONE,
        _ => false,
    };
    let entered = set.transitions.iter().any(|transition| transition.target == initial);
    let acts =
        set.actions.iter().any(|action| matches!(action.place, ENTRY | EXIT) && action.owner == initial);
    of_its_chart && one_plain && !entered && !acts
}

fn priorities_differ(set: &RawSet) -> bool {
    set.transitions.iter().enumerate().all(|(number, transition)| {
        let mut earlier = set.transitions[..number].iter();
        !earlier.any(|other| other.source == transition.source && other.priority == transition.priority)
    })
}

/// At most 8 actions an owner; a state's entry, exit and waiting actions count together.
fn actions_per_owner(set: &RawSet) -> bool {
    set.actions.iter().all(|action| {
        let same_owner =
            |other: &&RawAction| other.of_state() == action.of_state() && other.owner == action.owner;
        set.actions.iter().filter(same_owner).count() <= ACTIONS_PER_OWNER
    })
}

fn node_rules(set: &RawSet) -> bool {
    operands_lower_and_sorted(&set.nodes)
        && guards(set).all(|node| gives(&set.nodes, node, Sort::Truth))
        && assigned(set).all(|node| gives(&set.nodes, node, Sort::Number))
        && each_node_used_once(set)
}

/// The guards of transitions and of actions.
fn guards(set: &RawSet) -> impl Iterator<Item = usize> + '_ {
    let of_transitions =
        set.transitions.iter().map(|transition| transition.guard).filter(|guard| *guard != NONE);
    of_transitions.chain(set.actions.iter().filter_map(|action| action.guard)).map(usize::from)
}

fn assigned(set: &RawSet) -> impl Iterator<Item = usize> + '_ {
    set.actions.iter().filter(|action| action.deed == ASSIGN).map(|action| usize::from(action.node))
}

/// Uses as an operand, as a guard and as an assigned node count together.
fn each_node_used_once(set: &RawSet) -> bool {
    let mut uses = operand_uses(&set.nodes);
    for node in guards(set).chain(assigned(set)) {
        uses[node] += 1;
    }
    uses.iter().all(|count| *count == 1)
}

fn ticks_positive(set: &RawSet) -> bool {
    set.times().all(|time| ticks(time) > 0)
}

/// The milliseconds count, not the ticks: 200 and 201 differ.
fn waiting_times_equal(set: &RawSet) -> bool {
    let mut waiting = set.actions.iter().filter(|action| action.waits());
    waiting.all(|one| set.waiting_in(one.owner).all(|other| other.milliseconds == one.milliseconds))
}

/// For each refusal from 5 on whether it applies by itself. What an earlier refusal is for, a broken code or a number that
/// names nothing, the later ones pass over.
pub fn applying(set: &RawSet) -> [(Refusal, bool); 6] {
    [
        (refusals::CODE_OR_RANGE, !codes_and_ranges(set)),
        (refusals::NAMES_NOTHING, !names(set)),
        (refusals::STRUCTURE, structure_broken(set)),
        (refusals::NODES, nodes_broken(set)),
        (refusals::ZERO_TICKS, some_zero_ticks(set)),
        (refusals::WAITING_TIMES, !waiting_times_equal(set)),
    ]
}

fn structure_broken(set: &RawSet) -> bool {
    let chart = |state: u16| set.chart_of.get(usize::from(state));
    let across = |transition: &RawTransition| {
        let ends = chart(transition.source).zip(chart(transition.target));
        ends.is_some_and(|(from, to)| from != to)
    };
    set.transitions.iter().any(across)
        || (0..)
            .zip(&set.initial)
            .any(|(own, initial)| chart(*initial).is_some() && !initial_kept(set, own, *initial))
        || !priorities_differ(set)
        || !actions_per_owner(set)
}

fn nodes_broken(set: &RawSet) -> bool {
    let named = |node: &usize| *node < set.nodes.len();
    let known = |node: usize| shape(set.nodes[node].operator).is_some();
    let wrong = |node: usize, sort: Sort| known(node) && !gives(&set.nodes, node, sort);
    let operand_wrong = |own: usize| {
        let node = &set.nodes[own];
        let sorts = shape(node.operator).map_or(&[][..], |shape| shape.operands);
        let operands = node_operands(node).iter().map(|operand| usize::from(*operand)).zip(sorts);
        operands
            .filter(|(operand, _)| named(operand))
            .any(|(operand, sort)| operand >= own || wrong(operand, *sort))
    };
    let operands = set.nodes.iter().flat_map(node_operands).map(|operand| usize::from(*operand));
    let mut uses = vec![0; set.nodes.len()];
    for node in operands.chain(guards(set)).chain(assigned(set)).filter(named) {
        uses[node] += 1;
    }
    (0..set.nodes.len()).any(operand_wrong)
        || guards(set).filter(named).any(|node| wrong(node, Sort::Truth))
        || assigned(set).filter(named).any(|node| wrong(node, Sort::Number))
        || uses.iter().any(|count| *count != 1)
}

/// Milliseconds out of range are for 5.
fn some_zero_ticks(set: &RawSet) -> bool {
    set.times().any(|time| in_range(time) && ticks(time) == 0)
}
