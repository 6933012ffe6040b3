//! The rules of a chart's turn, and the plausible errors of the paper.

use simulator::assemble::*;
use simulator::chart_sets::*;
use simulator::charts::{self, ChartSet};
use simulator::deeds::Deed;
use simulator::operators::*;
use simulator::records::*;
use simulator::replay::replay;
use simulator::variables::Variable;
use simulator::Answer;
use simulator::Machine;

/// The answers of all charts' turns, cycle by cycle.
fn answers(set: &[u8], masks: &[u32]) -> Vec<Vec<Answer>> {
    let set = ChartSet::read(set).unwrap();
    let mut run = set.start();
    let cycle = |events: &u32| {
        let mut cycle = vec![set.turn(&mut run, *events).unwrap()];
        while cycle.last() != Some(&Answer::Time) {
            cycle.push(set.turn(&mut run, 0).unwrap());
        }
        cycle.pop();
        cycle
    };
    masks.iter().map(cycle).collect()
}

fn first_charts(set: &[u8], masks: &[u32]) -> Vec<Answer> {
    answers(set, masks).into_iter().map(|cycle| cycle[0]).collect()
}

use Answer::{Idle, Taken};

#[test]
fn idling_lets_the_age_grow_and_a_self_transition_sets_it_back() {
    // State 1 is entered in cycle 0; after 3 ticks it is left for state 2.
    assert_eq!(first_charts(&winch(), &[0, 0, 0, 0, 0]), [Taken(0), Idle, Idle, Taken(2), Idle]);
    // Event 0 in cycle 2 takes the self-transition: age 0 again, so cycle 5 is the third after it.
    let taken = first_charts(&winch(), &[0, 0, 1, 0, 0, 0, 0]);
    assert_eq!(taken, [Taken(0), Idle, Taken(1), Idle, Idle, Taken(2), Idle]);
}

#[test]
fn every_holds_at_positive_multiples() {
    // State 2 is entered in cycle 3; its self-transition every 2 ticks sets the age back each time.
    let taken = first_charts(&winch(), &[0; 9]);
    assert_eq!(taken[3..], [Taken(2), Idle, Taken(4), Idle, Taken(4), Idle]);
}

/// State 1 with an every-trigger whose guard counts on a variable, so that it holds only when the
/// guard does, at whatever multiple that is.
#[test]
fn every_comes_again_where_the_guard_held_it_back() {
    let parts = SetParts {
        charts: vec![chart(0), chart(3)],
        states: vec![state(0), state(0), state(0), state(1), state(1)],
        transitions: vec![
            transition(1, 0, 1),
            guarded(every(transition(1, 1, 2), 200), 2),
            transition(1, 3, 4),
            on_event(transition(1, 4, 4), 7),
        ],
        variables: vec![Variable { lowest: 0, highest: 1, start: 0 }],
        nodes: vec![variable_value(0), constant(1), operation(EQUAL, &[0, 1]), constant(1)],
        actions: vec![action(ON_TRANSITION, 3, Deed::Assign { variable: 0, node: 3 })],
    };
    // Age 2 in cycle 2, 4 in cycle 4; the variable is set in cycle 3, after chart 0's turn.
    let taken = first_charts(&parts.bytes(), &[0, 0, 0, 1 << 7, 0]);
    assert_eq!(taken, [Taken(0), Idle, Idle, Idle, Taken(1)]);
}

#[test]
fn after_holds_from_its_age_on() {
    // State 2 is entered in cycle 1, so its age is 3 in cycle 4; the guard is true from the cycle after event 1 on.
    for (set_in, taken_in) in [(2, 4), (3, 4), (4, 5), (5, 6), (40, 41)] {
        let mut masks = [0; 50];
        masks[1] = 1;
        masks[set_in] |= 2;
        let taken = first_charts(&held_back(), &masks);
        assert_eq!(taken.iter().position(|answer| *answer == Taken(2)), Some(taken_in), "set in {set_in}");
    }
}

/// State 1 is left by event 0 and entered again by event 1: a due time that passed in an earlier stay is none in the next.
#[test]
fn after_begins_anew_with_each_stay() {
    let parts = SetParts {
        charts: vec![chart(0)],
        states: vec![state(0), state(0), state(0)],
        transitions: vec![
            transition(1, 0, 1),
            on_event(transition(1, 1, 2), 0),
            guarded(after(transition(2, 1, 1), 200), 2),
            on_event(transition(1, 2, 1), 1),
        ],
        variables: vec![Variable { lowest: 0, highest: 1, start: 0 }],
        nodes: vec![variable_value(0), constant(1), operation(EQUAL, &[0, 1])],
        actions: Vec::new(),
    };
    let set = ChartSet::read(&parts.bytes()).unwrap();
    let mut run = set.start();
    assert_eq!(set.play(&mut run, &[0, 0, 0, 0, 0, 1, 2]), Ok(7));
    run.variables[0] = 1;
    let ages = [1, 2, 1, 2].map(|age| {
        let before = run.ages[0];
        set.cycle(&mut run, 0).unwrap();
        assert_eq!(before, age, "entered in cycle 6, and by itself at age 2");
        run.ages[0]
    });
    assert_eq!(ages, [2, 1, 2, 1]);
}

#[test]
fn a_raised_event_is_for_later_charts_of_its_cycle() {
    let expected = [
        vec![Taken(0), Taken(3)],
        vec![Taken(1), Taken(4)],
        vec![Idle, Idle],
        vec![Taken(1), Taken(4)],
        vec![Taken(2), Idle],
    ];
    // Event 6, raised by chart 1 in cycle 1, does not reach chart 0; given from outside it does.
    assert_eq!(answers(&relay(), &[0, 1, 0, 1, 1 << 6]), expected);
}

#[test]
fn exit_transition_entry_in_this_order() {
    let set = action_order();
    let mut run = charts::start(&set).unwrap();
    run = charts::cycle(&set, &run, 0).unwrap();
    assert_eq!(run.variables[0], 0, "the first transition has no deeds");
    run = charts::cycle(&set, &run, 0).unwrap();
    assert_eq!(run.variables[0], 123);
}

#[test]
fn an_action_whose_guard_is_false_is_left_out() {
    // Variables 0, 1 and 2 after each cycle: the first guard is false where those after it are true.
    let set = ChartSet::read(&guards_in_sequence()).unwrap();
    let mut run = set.start();
    let cycle = |events: &u32| {
        set.cycle(&mut run, *events).unwrap();
        [run.variables[0], run.variables[1], run.variables[2]]
    };
    let seen: Vec<[i16; 3]> = [0, 1, 1, 2, 1, 0].iter().map(cycle).collect();
    assert_eq!(seen, [[0, 0, 0], [1, 2, 1], [1, 7, 2], [0, 7, 2], [1, 9, 3], [1, 9, 3]]);
}

#[test]
fn the_fault_of_an_actions_guard_is_the_turns() {
    let set = ChartSet::read(&guard_that_faults()).unwrap();
    let mut run = set.start();
    let values = [0, 1, 1].map(|events| {
        set.cycle(&mut run, events).unwrap();
        (run.variables[0], run.variables[1])
    });
    assert_eq!(values, [(3, 0), (2, 1), (1, 1)]);
    let before = run;
    assert_eq!((set.turn(&mut run, 1), set.cycle(&mut run, 1)), (Err(16), Err(16)));
    assert_eq!(run, before);
}

#[test]
fn the_guard_is_met_only_where_it_is_reached() {
    // Priority 1 is the event's transition, though the file has it last.
    assert_eq!(first_charts(&guarded_division(), &[0, 1, 1]), [Taken(0), Taken(2), Taken(2)]);
    let set = ChartSet::read(&guarded_division()).unwrap();
    let mut run = set.start();
    assert_eq!(set.play(&mut run, &[0]), Ok(1));
    let before = run;
    assert_eq!(set.turn(&mut run, 2), Err(16));
    assert_eq!(run, before, "a fault leaves the run as before the call");
}

/// Chart 0 assigns and raises; chart 1 then faults.
fn second_chart_faults() -> Vec<u8> {
    SetParts {
        charts: vec![chart(0), chart(2)],
        states: vec![state(0), state(0), state(1), state(1)],
        transitions: vec![transition(1, 0, 1), transition(1, 2, 3)],
        variables: vec![Variable { lowest: 0, highest: 9, start: 0 }],
        nodes: vec![constant(5), constant(10)],
        actions: vec![
            action(ON_TRANSITION, 0, Deed::Assign { variable: 0, node: 0 }),
            action(ON_TRANSITION, 0, Deed::Raise { event: 31 }),
            action(ON_TRANSITION, 1, Deed::Assign { variable: 0, node: 1 }),
        ],
    }
    .bytes()
}

#[test]
fn a_cycle_that_faults_leaves_the_run_as_before_it() {
    let set = ChartSet::read(&second_chart_faults()).unwrap();
    let mut run = set.start();
    assert_eq!(set.cycle(&mut run, 3), Err(17));
    assert_eq!(run, set.start());
    // By turns, the first stands, with its events and its value.
    assert_eq!(set.turn(&mut run, 3), Ok(Taken(0)));
    assert_eq!((run.variables[0], run.events, run.position), (5, 1 << 31 | 3, 2));
    let before = run;
    assert_eq!(set.turn(&mut run, 0), Err(17));
    assert_eq!(set.cycle(&mut run, 0), Err(17));
    assert_eq!(run, before);
}

#[test]
fn a_cycle_from_the_middle_takes_the_turns_that_are_left() {
    let set = ChartSet::read(&relay()).unwrap();
    let mut run = set.start();
    assert_eq!(set.turn(&mut run, 0), Ok(Taken(0)));
    assert_eq!(set.cycle(&mut run, 1), Err(13));
    assert_eq!(set.cycle(&mut run, 0), Ok(()));
    assert_eq!((run.states[1], run.cycles, run.position, run.ages[0], run.ages[1]), (3, 1, 1, 1, 1));
    assert_eq!(set.turn(&mut run, 0).and(set.turn(&mut run, 0)), Ok(Idle));
    assert_eq!(run.position, 3);
    assert_eq!(set.cycle(&mut run, 0), Ok(()), "the time turn alone");
    assert_eq!((run.cycles, run.ages[0]), (2, 2));
}

fn masks(list: &[u32]) -> Vec<u8> {
    list.iter().flat_map(|mask| mask.to_le_bytes()).collect()
}

#[test]
fn replay_keeps_the_lines_before_a_fault_in_the_same_cycle() {
    let faulting = replay(&second_chart_faults(), &masks(&[0, 0]));
    assert_eq!((faulting.lines.as_str(), faulting.refusal), ("0 0 0 1 5\n", Some(17)));
}

#[test]
fn replay_of_a_set_without_variables_ends_with_the_state() {
    let lines = replay(&relay(), &masks(&[0, 1])).lines;
    assert_eq!(lines, "0 0 0 1\n0 1 3 3\n1 0 1 1\n1 1 4 3\n");
}

#[test]
fn replay_of_a_refused_set_has_no_lines() {
    let refused = replay(&zero_watch()[..16], &masks(&[0]));
    assert_eq!((refused.lines.as_str(), refused.refusal), ("", Some(6)));
    assert_eq!(replay(&zero_watch(), &[]).lines, "");
}
