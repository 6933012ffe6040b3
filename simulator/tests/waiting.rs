//! Actions done while a state waits: the turn, the twin, and paths.

use simulator::assemble::*;
use simulator::automata::AutomataTable;
use simulator::chart_sets::*;
use simulator::charts::ChartSet;
use simulator::deeds::Deed;
use simulator::path_back::rows_of;
use simulator::records::*;
use simulator::replay::replay;
use simulator::timing::{Clock, Timing};
use simulator::translation::twin;
use simulator::{Answer, ChartsRun, Machine};

fn masks(list: &[u32]) -> Vec<u8> {
    list.iter().flat_map(|mask| mask.to_le_bytes()).collect()
}

#[test]
fn a_state_counts_at_each_multiple_of_its_ticks() {
    // Entered in cycles 0, 5 and 9; the last at age 4, where counting would be due.
    let lines = replay(&counts_while_waiting(), &masks(&[0, 0, 0, 0, 0, 1, 0, 0, 0, 1, 0, 0])).lines;
    let taken = ["0", "-", "-", "-", "-", "1", "-", "-", "-", "1", "-", "-"];
    let counted = [0, 0, 1, 1, 2, 2, 2, 3, 3, 3, 3, 4];
    let expected: String =
        (0..12).map(|cycle| format!("{cycle} 0 {} 1 {}\n", taken[cycle], counted[cycle])).collect();
    assert_eq!(lines, expected);
}

#[test]
fn the_answer_is_idle_and_the_age_goes_on() {
    let set = ChartSet::read(&counts_while_waiting()).unwrap();
    for (age, counted) in [(0, 0), (1, 0), (2, 1), (3, 0), (4, 1), (400_000, 1), (400_001, 0)] {
        let mut run = ChartsRun { cycles: 500_000, ..set.start() };
        (run.states[0], run.ages[0]) = (1, age);
        assert_eq!(set.turn(&mut run, 0), Ok(Answer::Idle));
        assert_eq!((run.variables[0], run.ages[0], run.states[0]), (counted, age, 1), "at age {age}");
    }
}

#[test]
fn waiting_actions_go_in_file_order_and_see_each_other() {
    let played = replay(&sees_while_waiting(), &masks(&[0; 20]));
    let values: Vec<&str> = played.lines.lines().map(|line| line.split_once(" 1 ").unwrap().1).collect();
    let each = ["0 0", "1 30", "2 60", "3 60", "4 60"];
    let expected: Vec<&str> = each.iter().flat_map(|values| [*values; 3]).collect();
    assert_eq!((values, played.refusal), (expected, Some(17)));
}

#[test]
fn a_fault_while_waiting_is_the_turns() {
    let set = ChartSet::read(&sees_while_waiting()).unwrap();
    let mut run = set.start();
    assert_eq!(set.play(&mut run, &[0; 20]), Ok(15));
    let before = run;
    assert_eq!((set.turn(&mut run, 0), set.cycle(&mut run, 0)), (Err(17), Err(17)));
    assert_eq!(run, before);
    assert_eq!(
        set.turn(&mut run, 1),
        Ok(Answer::Taken(1)),
        "a transition taken leaves no waiting action done"
    );
}

#[test]
fn an_event_raised_while_waiting_is_for_later_charts() {
    let lines = replay(&raises_while_waiting(), &masks(&[0, 0, 0, 32, 0])).lines;
    let expected = "0 0 0 1 0 0\n0 1 2 3 0 0\n0 2 3 5 0 0\n\
        1 0 - 1 0 0\n1 1 - 3 0 0\n1 2 - 5 0 0\n\
        2 0 - 1 0 0\n2 1 - 3 0 0\n2 2 4 5 0 1\n\
        3 0 1 1 1 1\n3 1 - 3 1 1\n3 2 4 5 1 2\n\
        4 0 - 1 1 2\n4 1 - 3 1 2\n4 2 4 5 1 3\n";
    assert_eq!(lines, expected);
}

/// States 0 and 2 wait; state 1, between them, does not. Transition 1 leaves state 2 after 5 ticks, and 2 by event 0, first.
fn two_states_wait() -> Vec<u8> {
    let raise = |state, event| action(WAITING, state, Deed::Raise { event });
    SetParts {
        charts: vec![chart(1)],
        states: vec![state(0), state(0), state(0), state(0)],
        transitions: vec![
            transition(1, 1, 2),
            after(transition(3, 2, 0), 500),
            on_event(transition(2, 2, 2), 0),
            every(transition(1, 0, 2), 400),
        ],
        nodes: vec![constant(1), constant(2), operation(simulator::operators::LESS, &[0, 1])],
        actions: vec![
            at_each(raise(2, 7), 350),
            action(ENTRY, 2, Deed::Raise { event: 8 }),
            at_each(raise(0, 9), 149),
            done_if(at_each(raise(2, 10), 350), 2),
        ],
        ..SetParts::default()
    }
    .bytes()
}

/// The records of a kind.
fn of_kind(file: &[u8], kind: u8) -> Vec<Record> {
    whole_records(file).iter().filter(|record| record[0] == kind).copied().collect()
}

#[test]
fn the_idle_edge_of_a_waiting_state_becomes_two() {
    let table = twin(&ChartSet::read(&two_states_wait()).unwrap());
    let idle = |state| edge(0, state, state, true);
    let taken = [edge(0, 1, 2, false), edge(0, 2, 0, false), edge(0, 2, 2, false), edge(0, 0, 2, false)];
    // 4 and 5 of state 0, 6 of state 1, 7 and 8 of state 2, 9 of state 3.
    assert_eq!(of_kind(&table, EDGE), [&taken[..], &[0, 0, 1, 2, 2, 3].map(idle)].concat());
    let clock_of = |timing, ticks| clock(&Clock { timing, ticks });
    let (after, every) = (clock_of(Timing::After, 5), clock_of(Timing::Every, 4));
    assert_eq!(of_kind(&table, CLOCK), [after, every, clock_of(Timing::Every, 1), every]);
    let plain = |sign, edge| literal(sign, edge, NONE);
    let reads = |sign, edge, clock| reads_clock(plain(sign, edge), clock);
    let event = |sign, edge| reads_event(plain(sign, edge), 0);
    let expected = [
        plain(MUST_HOLD, 0),
        event(MUST_NOT, 1),
        reads(MUST_HOLD, 1, 0),
        event(MUST_HOLD, 2),
        reads(MUST_HOLD, 3, 1),
        // State 0: due, then not due.
        reads(MUST_NOT, 4, 1),
        reads(MUST_HOLD, 4, 2),
        reads(MUST_NOT, 5, 1),
        reads(MUST_NOT, 5, 2),
        plain(MUST_NOT, 6),
        // State 2, its transitions by priority.
        event(MUST_NOT, 7),
        reads(MUST_NOT, 7, 0),
        reads(MUST_HOLD, 7, 3),
        event(MUST_NOT, 8),
        reads(MUST_NOT, 8, 0),
        reads(MUST_NOT, 8, 3),
    ];
    assert_eq!(of_kind(&table, LITERAL), expected);
}

#[test]
fn due_edges_are_updated_and_the_waiting_clock_is_reset_last() {
    let table = twin(&ChartSet::read(&two_states_wait()).unwrap());
    let raise = |edge, event| update(edge, Deed::Raise { event });
    let entries = [0, 2, 3].map(|edge| raise(edge, 8));
    let waiting = [raise(4, 9), raise(7, 7), done_if(raise(7, 10), 2)];
    assert_eq!(of_kind(&table, UPDATE), [entries, waiting].concat());
    let resets = [(0, 0), (0, 3), (1, 1), (1, 2), (2, 0), (2, 3), (3, 0), (3, 3)];
    assert_eq!(of_kind(&table, RESET), resets.map(|(edge, clock)| reset(edge, clock)));
}

#[test]
fn the_twin_takes_the_due_edge_where_the_chart_acts() {
    let bytes = counts_while_waiting();
    let table = AutomataTable::read(&twin(&ChartSet::read(&bytes).unwrap())).unwrap();
    let mut run = table.start();
    let edges: Vec<Answer> = [0, 0, 0, 0, 0, 1, 0, 0, 0, 1, 0, 0]
        .into_iter()
        .map(|events| {
            let answer = table.turn(&mut run, events).unwrap();
            assert_eq!(table.turn(&mut run, 0), Ok(Answer::Time));
            answer
        })
        .collect();
    assert_eq!(edges, [0, 4, 3, 4, 3, 1, 4, 3, 4, 1, 4, 3].map(Answer::Taken));
}

#[test]
fn waiting_leaves_no_row_and_a_path_may_name_either_edge() {
    const TIME: u16 = 65_535;
    let set = ChartSet::read(&counts_while_waiting()).unwrap();
    assert_eq!(rows_of(&set, &[0, TIME, 3, TIME, 3, TIME, 4, TIME, 1]), Ok(vec![[0, 0, 0], [4, 0, 1]]));
    assert_eq!(rows_of(&set, &[2, TIME, 2, TIME, 0]), Ok(vec![[2, 0, 0]]));
    for path in [&[3][..], &[4], &[0, TIME, 2], &[0, TIME, 5], &[0, 3]] {
        assert_eq!(rows_of(&set, path), Err(20), "{path:?}");
    }
    // The idle edges of states 0 to 3 are 4 and 5, 6, 7 and 8, 9.
    let set = ChartSet::read(&two_states_wait()).unwrap();
    let rows = rows_of(&set, &[6, TIME, 0, TIME, 8, TIME, 7, TIME, 1, TIME, 4, TIME, 5, TIME, 3]).unwrap();
    assert_eq!(rows, [[1, 0, 0], [4, 0, 1], [7, 0, 3]]);
    for (path, edges) in [(&[][..], &[4, 5, 7, 8, 9, 10][..]), (&[0, TIME], &[4, 5, 6, 9, 10])] {
        for edge in edges {
            let path = [path, &[*edge]].concat();
            assert_eq!(rows_of(&set, &path), Err(20), "{path:?}");
        }
    }
}
