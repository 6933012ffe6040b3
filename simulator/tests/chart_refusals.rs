//! Refusals 1 to 9 and 25 of chart files, with concrete bytes: the zero-watch set with single fields changed.

use simulator::assemble::*;
use simulator::chart_sets::{counts_while_waiting, relay, two_waiting, winch, zero_watch, SetParts};
use simulator::charts::check;
use simulator::deeds::Deed;
use simulator::operators::*;
use simulator::records::*;
use simulator::variables::Variable;

// Record numbers of the zero-watch set.
const FIRST_CHART: usize = 0;
const FIRST_STATE: usize = 1;
const FIRST_TRANSITION: usize = 4;
const FIRST_VARIABLE: usize = 8;
const FIRST_NODE: usize = 9;
const FIRST_ACTION: usize = 16;

/// The zero-watch set with bytes of one record changed.
fn changed(record: usize, changes: &[(usize, u8)]) -> u32 {
    let mut bytes = zero_watch();
    for (at, value) in changes {
        bytes[16 * record + at] = *value;
    }
    check(&bytes)
}

#[test]
fn accepted_as_it_is() {
    assert_eq!(changed(0, &[]), 0);
}

#[test]
fn one_length() {
    let bytes = zero_watch();
    for length in [1, 15, 17, 287] {
        assert_eq!(check(&bytes[..length]), 1, "{length} bytes");
    }
    // The lowest number is given, however wrong the rest is.
    assert_eq!(check(&[255; 17]), 1);
}

#[test]
fn two_kinds() {
    for kind in [0, 7, 33, 255] {
        assert_eq!(changed(FIRST_STATE, &[(0, kind)]), 2, "kind {kind}");
    }
    assert_eq!(changed(FIRST_ACTION, &[(0, 5)]), 4, "still ascending: read as a node with stray bytes");
    assert_eq!(changed(FIRST_ACTION + 1, &[(0, 5)]), 2, "descending");
    assert_eq!(check(&[255; 32]), 2);
}

#[test]
fn three_counts() {
    assert_eq!(check(&[]), 3);
    assert_eq!(check(&zero_watch()[16..]), 3, "no chart");
    let limits = [(CHART, 8), (STATE, 128), (TRANSITION, 256), (VARIABLE, 64), (NODE, 1_024), (ACTION, 512)];
    for (kind, most) in limits {
        let of = |count: usize| {
            let mut records = vec![[0u8; 16]; count];
            records.iter_mut().for_each(|record| record[0] = kind);
            if kind != CHART {
                records.insert(0, chart(0));
            }
            check(&file(records))
        };
        assert_ne!(of(most), 3, "{most} of kind {kind}");
        assert_eq!(of(most + 1), 3, "one more of kind {kind}");
    }
}

#[test]
fn four_unnamed_bytes() {
    let named: [(usize, &[usize]); 6] = [
        (FIRST_CHART, &[0, 2, 3]),
        (FIRST_STATE, &[0, 1]),
        (FIRST_TRANSITION, &[0, 1, 2, 3, 4, 5, 6, 12, 13]),
        (FIRST_VARIABLE, &[0, 2, 3, 4, 5, 6, 7]),
        (FIRST_NODE + 2, &[0, 1, 2, 3, 4, 5]),
        (FIRST_ACTION, &[0, 1, 2, 3, 4, 5, 6, 7, 8, 9]),
    ];
    for (record, named) in named {
        for at in 0..16 {
            let found = changed(record, &[(at, 200)]);
            if named.contains(&at) {
                assert_ne!(found, 4, "record {record}, byte {at}");
            } else {
                assert_eq!(found, 4, "record {record}, byte {at}");
            }
        }
    }
}

#[test]
fn four_bytes_unused_under_their_code() {
    // Trigger 1 uses byte 7 alone, no trigger neither, a timing trigger 8-11 alone.
    for at in 8..=11 {
        assert_eq!(changed(FIRST_TRANSITION + 2, &[(at, 1)]), 4);
    }
    assert_eq!(changed(FIRST_TRANSITION, &[(7, 1)]), 4);
    let mut timed = winch();
    timed[16 * 6 + 7] = 1;
    assert_eq!(check(&timed), 4);
    // A variable's value uses 2-3, a constant 8-11, a difference 2-5.
    assert_eq!(changed(FIRST_NODE, &[(4, 1)]), 4);
    assert_eq!(changed(FIRST_NODE, &[(8, 1)]), 4);
    for at in 2..=7 {
        assert_eq!(changed(FIRST_NODE + 1, &[(at, 1)]), 4);
    }
    assert_eq!(changed(FIRST_NODE + 5, &[(6, 1)]), 4);
    // A raise uses no node.
    let mut raise = relay();
    let last = raise.len() - 16;
    raise[last + 6] = 1;
    assert_eq!(check(&raise), 4);
}

#[test]
fn four_under_an_unknown_code_asks_only_unnamed_bytes() {
    // Bytes whose use hangs on the code are passed over, so the code itself is refused.
    assert_eq!(changed(FIRST_TRANSITION, &[(6, 4), (7, 9), (8, 9), (11, 9)]), 5);
    assert_eq!(changed(FIRST_TRANSITION, &[(6, 4), (14, 1)]), 4);
    assert_eq!(changed(FIRST_NODE, &[(1, 9), (2, 1), (7, 1), (8, 1), (11, 1)]), 5);
    assert_eq!(changed(FIRST_NODE, &[(1, 9), (12, 1)]), 4);
    assert_eq!(changed(FIRST_ACTION, &[(4, 3), (6, 1), (7, 1)]), 5);
    assert_eq!(changed(FIRST_ACTION, &[(4, 3), (10, 1)]), 4);
    // An unknown place excuses no byte: 6-7 hang on the deed.
    assert_eq!(changed(FIRST_ACTION, &[(1, 9), (4, 2), (6, 1)]), 4);
    assert_eq!(changed(FIRST_ACTION, &[(1, 9)]), 5);
    // A guard's bytes are named under every code.
    for code in [(1, 9), (4, 3)] {
        assert_eq!(changed(FIRST_ACTION, &[code, (8, 255), (9, 255)]), 5);
        assert_eq!(changed(FIRST_ACTION, &[code, (8, 1), (11, 1)]), 4);
    }
    // The milliseconds hang on the place alone.
    assert_eq!(changed(FIRST_ACTION, &[(1, 9), (12, 1), (15, 255)]), 5);
    assert_eq!(changed(FIRST_ACTION, &[(4, 3), (12, 1)]), 4);
    assert_eq!(changed(FIRST_ACTION, &[(1, 4), (10, 1)]), 4);
    for (place, at) in [(1, 12), (2, 13), (3, 14), (3, 15)] {
        assert_eq!(changed(FIRST_ACTION, &[(1, place), (at, 1)]), 4, "place {place} uses no milliseconds");
    }
}

#[test]
fn five_codes_and_ranges() {
    for priority in [0, 17, 255] {
        assert_eq!(changed(FIRST_TRANSITION, &[(1, priority)]), 5, "priority {priority}");
    }
    assert_eq!(changed(FIRST_TRANSITION, &[(1, 16)]), 0);
    assert_eq!(changed(FIRST_TRANSITION + 2, &[(7, 31)]), 0);
    assert_eq!(changed(FIRST_TRANSITION + 2, &[(7, 32)]), 5);
    for operator in [0, 9, 15, 22] {
        assert_eq!(changed(FIRST_NODE, &[(1, operator)]), 5, "operator {operator}");
    }
    for place in [0, 5] {
        assert_eq!(changed(FIRST_ACTION, &[(1, place)]), 5, "place {place}");
    }
    for deed in [0, 3] {
        assert_eq!(changed(FIRST_ACTION, &[(4, deed)]), 5, "deed {deed}");
    }
    assert_eq!(changed(FIRST_ACTION, &[(4, 2), (5, 32), (6, 0)]), 5, "a raised event above 31");
    // From -100 to 100: a start of 101 or -101.
    assert_eq!(changed(FIRST_VARIABLE, &[(6, 100)]), 0);
    assert_eq!(changed(FIRST_VARIABLE, &[(6, 101)]), 5);
    assert_eq!(changed(FIRST_VARIABLE, &[(6, 0x9C), (7, 0xFF)]), 0);
    assert_eq!(changed(FIRST_VARIABLE, &[(6, 0x9B), (7, 0xFF)]), 5);
}

/// The winch set with other milliseconds of its after and of its every, one at a time, and a set with those of a waiting
/// action.
fn timed_sets(milliseconds: u32) -> [u32; 3] {
    let [after, every] = [6, 8].map(|record| {
        let mut bytes = winch();
        bytes[16 * record + 8..16 * record + 12].copy_from_slice(&milliseconds.to_le_bytes());
        check(&bytes)
    });
    [after, every, check(&two_waiting(milliseconds, milliseconds))]
}

#[test]
fn five_and_nine_milliseconds() {
    assert_eq!(timed_sets(0), [5; 3]);
    assert_eq!(timed_sets(1), [9; 3]);
    assert_eq!(timed_sets(49), [9; 3]);
    assert_eq!(timed_sets(50), [9; 3], "a half goes to the even 0");
    assert_eq!(timed_sets(51), [0; 3]);
    assert_eq!(timed_sets(3_600_000), [0; 3]);
    assert_eq!(timed_sets(3_600_001), [5; 3]);
    // Half a tick past the range is refused by 5, however it would be rounded.
    assert_eq!(timed_sets(3_600_050), [5; 3]);
    assert_eq!(timed_sets(u32::MAX), [5; 3]);
}

#[test]
fn twenty_five_compares_milliseconds() {
    assert_eq!(check(&two_waiting(200, 200)), 0);
    assert_eq!(check(&two_waiting(200, 201)), 25, "of as many ticks");
    assert_eq!(check(&two_waiting(3_600_000, 51)), 25);
    assert_eq!((check(&two_waiting(49, 200)), check(&two_waiting(200, 50))), (9, 9), "9 before 25");
    assert_eq!(check(&two_waiting(200, 0)), 5);
    let mut bytes = counts_while_waiting();
    let last = bytes.len() - 16;
    // Owners are states: 2 is none, and state 0, being initial, may wait.
    bytes[last + 2] = 2;
    assert_eq!(check(&bytes), 6);
    bytes[last + 2] = 0;
    assert_eq!(check(&bytes), 0);
}

#[test]
fn six_numbers_naming_nothing() {
    let cases = [
        (FIRST_CHART, 2, 3, "initial state"),
        (FIRST_STATE, 1, 1, "chart of a state"),
        (FIRST_TRANSITION, 2, 3, "source"),
        (FIRST_TRANSITION, 4, 3, "target"),
        (FIRST_TRANSITION, 12, 0xFE, "guard 65,534"),
        (FIRST_TRANSITION + 1, 12, 7, "guard"),
        (FIRST_NODE, 2, 1, "variable"),
        (FIRST_NODE + 2, 2, 7, "first operand"),
        (FIRST_NODE + 2, 4, 7, "second operand"),
        (FIRST_ACTION, 2, 4, "transition as owner"),
        (FIRST_ACTION, 5, 1, "assigned variable"),
        (FIRST_ACTION, 6, 7, "assigned node"),
    ];
    for (record, at, value, what) in cases {
        assert_eq!(changed(record, &[(at, value)]), 6, "{what}");
    }
    assert_eq!(changed(FIRST_ACTION, &[(1, 1), (2, 3)]), 6, "state as owner");
    assert_eq!(changed(FIRST_ACTION, &[(8, 8)]), 6, "an action's guard 7");
    assert_eq!(changed(FIRST_ACTION, &[(8, 7)]), 8, "an action's guard 6, which is a number");
    assert_eq!(changed(FIRST_ACTION, &[(8, 255), (9, 255)]), 6, "an action's guard 65,534");
    assert_eq!(changed(FIRST_ACTION, &[(4, 2), (6, 0), (8, 255), (9, 255)]), 6, "a raise's guard 65,534");
    // 65,535 means none for a guard alone.
    assert_eq!(changed(FIRST_NODE + 2, &[(2, 255), (3, 255)]), 6);
    assert_eq!(changed(FIRST_ACTION, &[(6, 255), (7, 255)]), 6);
    assert_eq!(changed(FIRST_TRANSITION + 1, &[(12, 255), (13, 255)]), 8, "the guard's nodes are not used");
}

/// Two charts: 0 with states 0 (initial), 1, 2; 1 with states 3 (initial), 4.
fn two_charts() -> SetParts {
    SetParts {
        charts: vec![chart(0), chart(3)],
        states: vec![state(0), state(0), state(0), state(1), state(1)],
        transitions: vec![transition(1, 0, 1), transition(2, 1, 2), transition(5, 1, 1), transition(1, 3, 4)],
        variables: vec![Variable { lowest: 0, highest: 9, start: 0 }],
        nodes: vec![constant(1), constant(1), operation(EQUAL, &[0, 1])],
        actions: Vec::new(),
    }
}

fn with(change: impl FnOnce(&mut SetParts)) -> u32 {
    let mut parts = two_charts();
    // The one guard stands on transition 1 unless the change moves it.
    parts.transitions[1] = guarded(parts.transitions[1], 2);
    change(&mut parts);
    check(&parts.bytes())
}

#[test]
fn seven_ends_and_initial_states() {
    assert_eq!(with(|_| {}), 0);
    assert_eq!(with(|p| p.transitions[2] = transition(5, 1, 4)), 7, "across charts");
    assert_eq!(with(|p| p.transitions[2] = transition(5, 4, 1)), 7, "across charts");
    assert_eq!(with(|p| p.charts[1] = chart(0)), 7, "initial state of another chart");
    assert_eq!(with(|p| p.charts[1] = chart(4)), 7, "without a leaving transition, and entered");
    assert_eq!(with(|p| p.transitions[3] = transition(1, 4, 4)), 7, "without a leaving transition");
    assert_eq!(with(|p| p.transitions.push(transition(2, 3, 4))), 7, "two leaving transitions");
    assert_eq!(with(|p| p.transitions[3] = on_event(transition(1, 3, 4), 0)), 7, "trigger");
    assert_eq!(with(|p| p.transitions[3] = after(transition(1, 3, 4), 100)), 7, "trigger");
    assert_eq!(
        with(|p| {
            p.transitions[1] = transition(2, 1, 2);
            p.transitions[3] = guarded(transition(1, 3, 4), 2);
        }),
        7,
        "guard"
    );
    assert_eq!(with(|p| p.transitions[2] = transition(5, 1, 0)), 7, "entered");
    assert_eq!(with(|p| p.transitions[3] = transition(1, 3, 3)), 7, "entered by its own transition");
}

#[test]
fn seven_actions_and_priorities() {
    let raise = Deed::Raise { event: 0 };
    assert_eq!(with(|p| p.actions.push(action(ENTRY, 3, raise))), 7, "entry action of an initial state");
    assert_eq!(with(|p| p.actions.push(action(EXIT, 0, raise))), 7, "exit action of an initial state");
    assert_eq!(with(|p| p.actions.push(action(ON_TRANSITION, 3, raise))), 0, "its transition may have one");
    assert_eq!(with(|p| p.actions.push(action(ON_TRANSITION, 0, raise))), 0, "transition 0 is not state 0");
    assert_eq!(with(|p| p.transitions[2] = transition(2, 1, 1)), 7, "equal priorities");
    assert_eq!(with(|p| p.transitions[2] = transition(2, 2, 1)), 0, "equal priorities of two states");
    assert_eq!(with(|p| p.actions = vec![action(ENTRY, 1, raise); 8]), 0);
    assert_eq!(with(|p| p.actions = vec![action(ENTRY, 1, raise); 9]), 7);
    assert_eq!(with(|p| p.actions = vec![action(ON_TRANSITION, 1, raise); 8]), 0);
    assert_eq!(with(|p| p.actions = vec![action(ON_TRANSITION, 1, raise); 9]), 7);
    let mixed =
        |exits: usize| [vec![action(ENTRY, 1, raise); 5], vec![action(EXIT, 1, raise); exits]].concat();
    assert_eq!(with(|p| p.actions = mixed(3)), 0);
    assert_eq!(with(|p| p.actions = mixed(4)), 7, "entry and exit actions count together");
    let waiting = |state| at_each(action(WAITING, state, raise), 200);
    assert_eq!(with(|p| p.actions = vec![waiting(1); 8]), 0);
    assert_eq!(with(|p| p.actions = vec![waiting(1); 9]), 7);
    assert_eq!(with(|p| p.actions = vec![waiting(0); 8]), 0, "an initial state may have waiting actions");
    assert_eq!(with(|p| p.actions = vec![waiting(0); 9]), 7);
    assert_eq!(with(|p| p.actions = [mixed(2), vec![waiting(1)]].concat()), 0);
    assert_eq!(
        with(|p| p.actions = [mixed(3), vec![waiting(1)]].concat()),
        7,
        "waiting ones count with them"
    );
    let at_different = [at_each(waiting(1), 201), waiting(1)];
    assert_eq!(with(|p| p.actions = at_different.to_vec()), 25);
    assert_eq!(with(|p| p.actions = [at_each(waiting(2), 201), waiting(1)].to_vec()), 0, "of two states");
    let beside = [vec![action(ENTRY, 1, raise); 8], vec![action(ON_TRANSITION, 1, raise); 8]].concat();
    assert_eq!(with(|p| p.actions = beside), 0, "state 1 and transition 1 are different owners");
}

#[test]
fn eight_nodes() {
    assert_eq!(with(|p| p.nodes[2] = operation(EQUAL, &[0, 2])), 8, "an operand of its own");
    assert_eq!(
        with(|p| p.nodes = vec![constant(1), operation(EQUAL, &[0, 2]), constant(1)]),
        8,
        "a higher operand"
    );
    assert_eq!(with(|p| p.nodes[2] = operation(AND, &[0, 1])), 8, "numbers where truths belong");
    assert_eq!(with(|p| p.nodes[2] = operation(SUM, &[0, 1])), 8, "a guard that is a number");
    assert_eq!(with(|p| p.nodes[2] = operation(EQUAL, &[0, 0])), 8, "used twice and not at all");
    assert_eq!(with(|p| p.nodes.push(constant(3))), 8, "not used");
    assert_eq!(with(|p| p.transitions[2] = guarded(p.transitions[2], 2)), 8, "used by two guards");
    let assign = |node| action(ON_TRANSITION, 1, Deed::Assign { variable: 0, node });
    assert_eq!(with(|p| p.actions.push(assign(0))), 8, "an operand and assigned");
    assert_eq!(
        with(|p| {
            p.transitions[1] = transition(2, 1, 2);
            p.actions.push(assign(2));
        }),
        8,
        "an assigned truth"
    );
    assert_eq!(
        with(|p| {
            p.nodes.push(constant(3));
            p.actions.push(assign(3));
        }),
        0
    );
    let not = |p: &mut SetParts, operand| {
        p.nodes.push(operation(NOT, &[operand]));
        p.transitions[1] = guarded(p.transitions[1], 3);
    };
    assert_eq!(with(|p| not(p, 2)), 0);
    assert_eq!(with(|p| not(p, 0)), 8, "not of a number");
}

#[test]
fn eight_guards_of_actions() {
    let raise = action(ON_TRANSITION, 1, Deed::Raise { event: 0 });
    let assign = |node| action(ENTRY, 1, Deed::Assign { variable: 0, node });
    let more = [constant(2), constant(2), operation(EQUAL, &[3, 4]), constant(3)];
    let with_more = |actions: &[Record]| {
        with(|p| {
            p.nodes.extend(more);
            p.actions.extend(actions);
        })
    };
    assert_eq!(with_more(&[done_if(raise, 5), assign(6)]), 0);
    assert_eq!(with_more(&[raise, done_if(assign(6), 5)]), 0);
    assert_eq!(with_more(&[raise, assign(6)]), 8, "a guard that nothing uses");
    assert_eq!(with_more(&[done_if(raise, 5), done_if(assign(6), 5)]), 8, "a guard of two actions");
    assert_eq!(with_more(&[done_if(raise, 5), done_if(assign(6), 2)]), 8, "a transition's guard");
    assert_eq!(with_more(&[done_if(raise, 6), done_if(raise, 5)]), 8, "a number");
    assert_eq!(with_more(&[done_if(assign(6), 6), done_if(raise, 5)]), 8, "its own number");
    let negated = |guard: u16| {
        with(|p| {
            p.nodes.push(operation(NOT, &[2]));
            p.transitions[1] = transition(2, 1, 2);
            p.actions.extend([done_if(raise, 3)]);
            if guard != 3 {
                p.actions.push(done_if(raise, guard));
            }
        })
    };
    assert_eq!((negated(3), negated(2)), (0, 8), "an operand");
}

#[test]
fn a_choice_takes_a_truth_and_two_numbers() {
    let choice = |operands: [u16; 3]| {
        with(|p| {
            p.nodes.extend([constant(4), constant(5), operation(CHOICE, &operands)]);
            p.transitions[1] = transition(2, 1, 2);
            p.actions.push(action(ON_TRANSITION, 1, Deed::Assign { variable: 0, node: 5 }));
        })
    };
    assert_eq!(choice([2, 3, 4]), 0);
    assert_eq!(choice([3, 2, 4]), 8);
    assert_eq!(choice([3, 4, 2]), 8);
}

#[test]
fn the_lowest_number_is_given() {
    // 25 with 9: a time of no ticks; with 8: a node too many; with 7: equal priorities; and so on down.
    let mut parts = two_charts();
    parts.transitions[1] = guarded(parts.transitions[1], 2);
    let waiting = action(WAITING, 1, Deed::Raise { event: 0 });
    parts.actions = vec![at_each(waiting, 200), at_each(waiting, 300)];
    assert_eq!(check(&parts.bytes()), 25);
    parts.transitions[1] = after(parts.transitions[1], 50);
    assert_eq!(check(&parts.bytes()), 9);
    parts.nodes.push(constant(0));
    assert_eq!(check(&parts.bytes()), 8);
    parts.transitions[2][1] = 2;
    assert_eq!(check(&parts.bytes()), 7);
    parts.charts[1] = chart(5);
    assert_eq!(check(&parts.bytes()), 6);
    parts.variables[0].start = 10;
    assert_eq!(check(&parts.bytes()), 5);
    parts.states[0][15] = 1;
    assert_eq!(check(&parts.bytes()), 4);
    parts.states.extend(vec![state(0); 124]);
    assert_eq!(check(&parts.bytes()), 3);
    parts.states[1][0] = 7;
    assert_eq!(check(&parts.bytes()), 2);
    assert_eq!(check(&parts.bytes()[1..]), 1);
}
