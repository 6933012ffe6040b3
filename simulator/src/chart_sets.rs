//! Hand-written chart sets with names, as bytes.

use crate::assemble::*;
use crate::deeds::Deed;
use crate::expressions::Node;
use crate::operators::*;
use crate::records::{Record, ENTRY, EXIT, NODE, ON_TRANSITION, VARIABLE, WAITING};
use crate::variables::Variable;

/// One chart; states 0 initial, 1 ahead, 2 behind; one variable from -100 to 100.
pub fn zero_watch() -> Vec<u8> {
    let nodes = [
        variable_value(0),
        constant(0),
        operation(LESS, &[0, 1]),
        variable_value(0),
        constant(2),
        operation(DIFFERENCE, &[3, 4]),
        constant(1),
    ];
    SetParts {
        charts: vec![chart(0)],
        states: vec![state(0), state(0), state(0)],
        transitions: vec![
            transition(1, 0, 1),
            guarded(transition(1, 1, 2), 2),
            on_event(transition(2, 1, 1), 0),
            on_event(transition(1, 2, 1), 1),
        ],
        variables: vec![Variable { lowest: -100, highest: 100, start: 1 }],
        nodes: nodes.to_vec(),
        actions: vec![
            action(ON_TRANSITION, 2, Deed::Assign { variable: 0, node: 5 }),
            action(ON_TRANSITION, 3, Deed::Assign { variable: 0, node: 6 }),
        ],
    }
    .bytes()
}

/// The parts of a set, each kind in file order.
#[derive(Clone, Default)]
pub struct SetParts {
    pub charts: Vec<Record>,
    pub states: Vec<Record>,
    pub transitions: Vec<Record>,
    pub variables: Vec<Variable>,
    pub nodes: Vec<Node>,
    pub actions: Vec<Record>,
}

impl SetParts {
    pub fn bytes(&self) -> Vec<u8> {
        let variables = self.variables.iter().map(|one| variable(VARIABLE, one));
        let nodes = self.nodes.iter().map(|one| node(NODE, one));
        let first = self.charts.iter().chain(&self.states).chain(&self.transitions).copied();
        file(first.chain(variables).chain(nodes).chain(self.actions.iter().copied()))
    }
}

/// One chart of an initial state 0 and a state 1, with no loop: the smallest set that is accepted.
pub fn smallest() -> Vec<u8> {
    SetParts {
        charts: vec![chart(0)],
        states: vec![state(0), state(0)],
        transitions: vec![transition(1, 0, 1)],
        ..SetParts::default()
    }
    .bytes()
}

/// One chart of so many states, two at least: from each to the next, from the last to state 1, and from each but the initial one to state 1 by event 0,
/// which comes first.
pub fn ring(states: u16) -> Vec<u8> {
    let later = (1..states).flat_map(|from| {
        let next = if from + 1 < states { from + 1 } else { 1 };
        [on_event(transition(1, from, 1), 0), transition(2, from, next)]
    });
    SetParts {
        charts: vec![chart(0)],
        states: vec![state(0); usize::from(states)],
        transitions: std::iter::once(transition(1, 0, 1)).chain(later).collect(),
        ..SetParts::default()
    }
    .bytes()
}

/// State 1 is entered in the first cycle and left for state 2 by event 0; state 2 goes back to 1
/// after the milliseconds given.
pub fn one_after(milliseconds: u32) -> Vec<u8> {
    SetParts {
        charts: vec![chart(0)],
        states: vec![state(0), state(0), state(0)],
        transitions: vec![
            transition(1, 0, 1),
            on_event(transition(1, 1, 2), 0),
            after(transition(1, 2, 1), milliseconds),
        ],
        ..SetParts::default()
    }
    .bytes()
}

/// State 1 goes to itself at event 0 and to state 2 after 3 ticks; state 2 counts every 2 ticks and
/// is left by event 1. Idling must let the age grow, and the self-transition must set it back.
pub fn winch() -> Vec<u8> {
    SetParts {
        charts: vec![chart(0)],
        states: vec![state(0), state(0), state(0)],
        transitions: vec![
            transition(1, 0, 1),
            on_event(transition(2, 1, 1), 0),
            after(transition(7, 1, 2), 300),
            on_event(transition(3, 2, 1), 1),
            every(transition(4, 2, 2), 200),
        ],
        variables: vec![Variable { lowest: 0, highest: 1_000, start: 0 }],
        nodes: vec![variable_value(0), constant(1), operation(SUM, &[0, 1])],
        actions: vec![action(ON_TRANSITION, 4, Deed::Assign { variable: 0, node: 2 })],
    }
    .bytes()
}

/// State 1 is left for state 2 by event 0, and state 2 for state 3 after 3 ticks where the variable is
/// 1, which chart 1, later in the cycle, sets at event 1: a due time that may have to wait.
pub fn held_back() -> Vec<u8> {
    SetParts {
        charts: vec![chart(0), chart(4)],
        states: vec![state(0), state(0), state(0), state(0), state(1), state(1)],
        transitions: vec![
            transition(1, 0, 1),
            on_event(transition(1, 1, 2), 0),
            guarded(after(transition(1, 2, 3), 300), 2),
            transition(1, 4, 5),
            on_event(transition(1, 5, 5), 1),
        ],
        variables: vec![Variable { lowest: 0, highest: 1, start: 0 }],
        nodes: vec![variable_value(0), constant(1), operation(EQUAL, &[0, 1]), constant(1)],
        actions: vec![action(ON_TRANSITION, 4, Deed::Assign { variable: 0, node: 3 })],
    }
    .bytes()
}

/// Exact halves go to the even tick: 150 and 250 ms are 2 ticks, 350 and 450 ms are 4. Chart 0 goes round its
/// states 1 to 4 by "after" with each of these times, chart 1 round its states 6 to 9 by "every". States 11 and 12
/// of chart 2 are left by two times of as many ticks, the longer one first in priority, so the other is never taken.
pub fn halves() -> Vec<u8> {
    SetParts {
        charts: vec![chart(0), chart(5), chart(10)],
        states: [0, 0, 0, 0, 0, 1, 1, 1, 1, 1, 2, 2, 2].map(state).to_vec(),
        transitions: vec![
            transition(1, 0, 1),
            after(transition(1, 1, 2), 150),
            after(transition(1, 2, 3), 250),
            after(transition(1, 3, 4), 350),
            after(transition(1, 4, 1), 450),
            transition(1, 5, 6),
            every(transition(1, 6, 7), 150),
            every(transition(1, 7, 8), 250),
            every(transition(1, 8, 9), 350),
            every(transition(1, 9, 6), 450),
            transition(1, 10, 11),
            after(transition(1, 11, 12), 250),
            every(transition(2, 11, 11), 150),
            every(transition(1, 12, 11), 450),
            after(transition(2, 12, 12), 350),
        ],
        ..SetParts::default()
    }
    .bytes()
}

/// Chart 0 raises event 5 whenever event 0 comes; chart 1, later in the cycle, answers it by
/// raising event 6, which chart 0 waits for in vain: an event lasts for later charts only.
pub fn relay() -> Vec<u8> {
    SetParts {
        charts: vec![chart(0), chart(2)],
        states: vec![state(0), state(0), state(1), state(1)],
        transitions: vec![
            transition(1, 0, 1),
            on_event(transition(2, 1, 1), 0),
            on_event(transition(1, 1, 1), 6),
            transition(1, 2, 3),
            on_event(transition(16, 3, 3), 5),
        ],
        actions: vec![
            action(ON_TRANSITION, 1, Deed::Raise { event: 5 }),
            action(ON_TRANSITION, 4, Deed::Raise { event: 6 }),
        ],
        ..SetParts::default()
    }
    .bytes()
}

/// Exit, transition and entry actions that write the digits 1, 2, 3 into one variable in the order
/// they run, given in the file in the opposite order.
pub fn action_order() -> Vec<u8> {
    let mut nodes = Vec::new();
    for digit in 1..=3u16 {
        let first = 5 * (digit - 1);
        nodes.extend([
            variable_value(0),
            constant(10),
            operation(PRODUCT, &[first, first + 1]),
            constant(i32::from(digit)),
            operation(SUM, &[first + 2, first + 3]),
        ]);
    }
    SetParts {
        charts: vec![chart(0)],
        states: vec![state(0), state(0), state(0)],
        transitions: vec![transition(1, 0, 1), transition(1, 1, 2)],
        variables: vec![Variable { lowest: 0, highest: 999, start: 0 }],
        nodes,
        actions: vec![
            action(ENTRY, 2, Deed::Assign { variable: 0, node: 14 }),
            action(ON_TRANSITION, 1, Deed::Assign { variable: 0, node: 9 }),
            action(EXIT, 1, Deed::Assign { variable: 0, node: 4 }),
        ],
    }
    .bytes()
}

/// At event 0 variable 1 becomes 5 where variable 0 is 1; then variable 0 becomes 1; then, where it is 1, variable 1 grows
/// by 2 and event 5 is raised, which chart 1 counts. At event 1 variable 0 becomes 0 again. So the first guard is false
/// where those after it, of the same text, are true.
pub fn guards_in_sequence() -> Vec<u8> {
    let is_one = |first: u16| [variable_value(0), constant(1), operation(EQUAL, &[first, first + 1])];
    let grown = |variable: u16, by: i32, first: u16| {
        [variable_value(variable), constant(by), operation(SUM, &[first, first + 1])]
    };
    let assign =
        |transition, variable, node| action(ON_TRANSITION, transition, Deed::Assign { variable, node });
    SetParts {
        charts: vec![chart(0), chart(2)],
        states: vec![state(0), state(0), state(1), state(1)],
        transitions: vec![
            transition(1, 0, 1),
            on_event(transition(1, 1, 1), 0),
            on_event(transition(2, 1, 1), 1),
            transition(1, 2, 3),
            on_event(transition(1, 3, 3), 5),
        ],
        variables: [1, 9, 99].map(|highest| Variable { lowest: 0, highest, start: 0 }).to_vec(),
        nodes: [
            &is_one(0)[..],
            &is_one(3),
            &is_one(6),
            &grown(1, 2, 9),
            &grown(2, 1, 12),
            &[constant(5), constant(1), constant(0)],
        ]
        .concat(),
        actions: vec![
            done_if(assign(1, 1, 15), 2),
            assign(1, 0, 16),
            done_if(assign(1, 1, 11), 5),
            done_if(action(ON_TRANSITION, 1, Deed::Raise { event: 5 }), 8),
            assign(2, 0, 17),
            assign(4, 2, 14),
        ],
    }
    .bytes()
}

/// At event 0 variable 0 falls by 1; then, where it is below 0, a number outside variable 1 would be assigned to that; then
/// variable 1 grows by 1 where 6 divided by variable 0 is 3. From 3 on: 2 makes that guard true, 1 false, and 0 a fault.
pub fn guard_that_faults() -> Vec<u8> {
    SetParts {
        charts: vec![chart(0)],
        states: vec![state(0), state(0)],
        transitions: vec![transition(1, 0, 1), on_event(transition(1, 1, 1), 0)],
        variables: [3, 0].map(|start| Variable { lowest: -9, highest: 9, start }).to_vec(),
        nodes: vec![
            variable_value(0),
            constant(1),
            operation(DIFFERENCE, &[0, 1]),
            variable_value(0),
            constant(0),
            operation(LESS, &[3, 4]),
            constant(100),
            constant(6),
            variable_value(0),
            operation(QUOTIENT, &[7, 8]),
            constant(3),
            operation(EQUAL, &[9, 10]),
            variable_value(1),
            constant(1),
            operation(SUM, &[12, 13]),
        ],
        actions: vec![
            action(EXIT, 1, Deed::Assign { variable: 0, node: 2 }),
            done_if(action(ON_TRANSITION, 1, Deed::Assign { variable: 1, node: 6 }), 5),
            done_if(action(ENTRY, 1, Deed::Assign { variable: 1, node: 14 }), 11),
        ],
    }
    .bytes()
}

/// State 1 counts while it waits, each 250 ms, which are 2 ticks; event 0 enters it anew.
pub fn counts_while_waiting() -> Vec<u8> {
    SetParts {
        charts: vec![chart(0)],
        states: vec![state(0), state(0)],
        transitions: vec![transition(1, 0, 1), on_event(transition(1, 1, 1), 0)],
        variables: vec![Variable { lowest: 0, highest: 1_000, start: 0 }],
        nodes: vec![variable_value(0), constant(1), operation(SUM, &[0, 1])],
        actions: vec![at_each(action(WAITING, 1, Deed::Assign { variable: 0, node: 2 }), 250)],
    }
    .bytes()
}

/// Each 3 ticks that state 1 waits, variable 0 grows by 1, which at 4 is a fault; then variable 1 becomes 60 divided by
/// what variable 0 lacks of 3, where it is below 3: at 3 itself that number would fault. Event 0 enters state 1 anew, which
/// sets variable 0 back.
pub fn sees_while_waiting() -> Vec<u8> {
    let waiting = |variable, node| at_each(action(WAITING, 1, Deed::Assign { variable, node }), 300);
    SetParts {
        charts: vec![chart(0)],
        states: vec![state(0), state(0)],
        transitions: vec![transition(1, 0, 1), on_event(transition(1, 1, 1), 0)],
        variables: [4, 99].map(|highest| Variable { lowest: 0, highest, start: 0 }).to_vec(),
        nodes: vec![
            variable_value(0),
            constant(1),
            operation(SUM, &[0, 1]),
            variable_value(0),
            constant(3),
            operation(LESS, &[3, 4]),
            constant(60),
            constant(3),
            variable_value(0),
            operation(DIFFERENCE, &[7, 8]),
            operation(QUOTIENT, &[6, 9]),
            constant(0),
        ],
        actions: vec![
            waiting(0, 2),
            action(ENTRY, 1, Deed::Assign { variable: 0, node: 11 }),
            done_if(waiting(1, 10), 5),
        ],
    }
    .bytes()
}

/// Chart 1 raises event 5 each 2 ticks that it waits in state 3; its initial state has such an action in vain. Chart 2,
/// later in the cycle, counts the event, and chart 0, earlier, only what comes from outside.
pub fn raises_while_waiting() -> Vec<u8> {
    let raise = |state| at_each(action(WAITING, state, Deed::Raise { event: 5 }), 200);
    let count =
        |transition, variable, node| action(ON_TRANSITION, transition, Deed::Assign { variable, node });
    SetParts {
        charts: vec![chart(0), chart(2), chart(4)],
        states: [0, 0, 1, 1, 2, 2].map(state).to_vec(),
        transitions: vec![
            transition(1, 0, 1),
            on_event(transition(1, 1, 1), 5),
            transition(1, 2, 3),
            transition(1, 4, 5),
            on_event(transition(1, 5, 5), 5),
        ],
        variables: vec![Variable { lowest: 0, highest: 1_000, start: 0 }; 2],
        nodes: vec![
            variable_value(0),
            constant(1),
            operation(SUM, &[0, 1]),
            variable_value(1),
            constant(1),
            operation(SUM, &[3, 4]),
        ],
        actions: vec![raise(2), raise(3), count(1, 0, 2), count(4, 1, 5)],
    }
    .bytes()
}

/// State 1 has two waiting actions with the milliseconds given.
pub fn two_waiting(first: u32, second: u32) -> Vec<u8> {
    let raise = |event, milliseconds| at_each(action(WAITING, 1, Deed::Raise { event }), milliseconds);
    SetParts {
        charts: vec![chart(0)],
        states: vec![state(0), state(0)],
        transitions: vec![transition(1, 0, 1)],
        actions: vec![raise(0, first), raise(1, second)],
        ..SetParts::default()
    }
    .bytes()
}

/// State 1's two transitions stand in the file against their priorities; the second in priority
/// has a guard that divides by zero, and is met only where event 0 is absent.
pub fn guarded_division() -> Vec<u8> {
    SetParts {
        charts: vec![chart(0)],
        states: vec![state(0), state(0), state(0)],
        transitions: vec![
            transition(1, 0, 1),
            guarded(transition(2, 1, 2), 4),
            on_event(transition(1, 1, 1), 0),
        ],
        variables: vec![Variable { lowest: -3, highest: 3, start: 0 }],
        nodes: vec![
            constant(1),
            variable_value(0),
            operation(QUOTIENT, &[0, 1]),
            constant(0),
            operation(EQUAL, &[2, 3]),
        ],
        actions: Vec::new(),
    }
    .bytes()
}

/// At event 0 variable 2 becomes the quotient of variables 0 and 1, and variable 3 their remainder.
pub fn divides() -> Vec<u8> {
    let assign = |variable, node| action(ON_TRANSITION, 1, Deed::Assign { variable, node });
    SetParts {
        charts: vec![chart(0)],
        states: vec![state(0), state(0)],
        transitions: vec![transition(1, 0, 1), on_event(transition(1, 1, 1), 0)],
        variables: vec![Variable { lowest: i16::MIN, highest: i16::MAX, start: 0 }; 4],
        nodes: vec![
            variable_value(0),
            variable_value(1),
            operation(QUOTIENT, &[0, 1]),
            variable_value(0),
            variable_value(1),
            operation(REMAINDER, &[3, 4]),
        ],
        actions: vec![assign(2, 2), assign(3, 5)],
    }
    .bytes()
}

/// The first cycle assigns `value` to a variable of the given range.
pub fn one_assignment(lowest: i16, highest: i16, start: i16, value: i32) -> Vec<u8> {
    one_expression(lowest, highest, start, &[constant(value)])
}

/// The first cycle assigns the last of the nodes to the one variable.
pub fn one_expression(lowest: i16, highest: i16, start: i16, nodes: &[Node]) -> Vec<u8> {
    let last = u16::try_from(nodes.len()).expect("at most 1,024 nodes") - 1;
    SetParts {
        charts: vec![chart(0)],
        states: vec![state(0), state(0)],
        transitions: vec![transition(1, 0, 1)],
        variables: vec![Variable { lowest, highest, start }],
        nodes: nodes.to_vec(),
        actions: vec![action(ON_TRANSITION, 0, Deed::Assign { variable: 0, node: last })],
    }
    .bytes()
}

/// All named sets that take no parameter.
pub fn all() -> Vec<(&'static str, Vec<u8>)> {
    vec![
        ("zero_watch", zero_watch()),
        ("smallest", smallest()),
        ("one_after", one_after(300)),
        ("winch", winch()),
        ("held_back", held_back()),
        ("halves", halves()),
        ("relay", relay()),
        ("action_order", action_order()),
        ("guards_in_sequence", guards_in_sequence()),
        ("guard_that_faults", guard_that_faults()),
        ("counts_while_waiting", counts_while_waiting()),
        ("sees_while_waiting", sees_while_waiting()),
        ("raises_while_waiting", raises_while_waiting()),
        ("guarded_division", guarded_division()),
        ("one_assignment", one_assignment(-1, 1, 0, -2)),
    ]
}
