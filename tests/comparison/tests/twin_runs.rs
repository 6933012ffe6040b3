//! Runs of tables of automata.

use comparison::calls;
use comparison::met::Met;
use comparison::monuvaleck::TIME;
use simulator::chart_sets::{two_waiting, zero_watch};
use simulator::generate::calls::Call;
use simulator::generate::longest_twins::most_resets;
use simulator::generate::sets::{valid_set, Size};
use simulator::generate::table_states::edges_read_alone;
use simulator::generate::tables;
use simulator::{AutomataRun, AutomataTable, ChartSet, Machine, Random};

/// Of a turn that faults by 15, 16 or 17: whether an edge's guard faults or an update, and how the other edges stand.
fn note_fault(met: &mut Met, table: &AutomataTable, run: &AutomataRun, call: Call, answer: i32) {
    let (Call::Turn(events), -17..=-15) = (call, answer) else {
        return;
    };
    let number = answer.unsigned_abs();
    let given = AutomataTable::with_events(run, events);
    let automaton = usize::try_from(given.position).expect("small") - 1;
    let read = edges_read_alone(table, &given, automaton);
    let faults: Vec<u32> = read.iter().filter_map(|edge| edge.err()).collect();
    if faults.is_empty() {
        met.add(format!("an update's fault: {number}"));
        return;
    }
    assert_eq!(faults[0], number, "the lowest edge's fault");
    met.add(format!("an edge's fault: {number}"));
    match read.iter().filter(|edge| **edge == Ok(true)).count() {
        0 => met.add("an edge's fault where no other edge is open"),
        1 => met.add("an edge's fault where one other edge is open"),
        _ => met.add("an edge's fault where several others are open"),
    }
    if read[0] == Ok(true) {
        met.add("an edge's fault above an open edge");
    }
    if faults.iter().any(|other| *other != faults[0]) {
        met.add("two edges with different faults");
    }
}

/// Of a turn that took an idle edge: whether that has updates, as those of waiting actions are.
fn note_idle(met: &mut Met, table: &AutomataTable, call: Call, answer: i32) {
    let (Call::Turn(_), 0..TIME) = (call, answer) else { return };
    let edge = &table.edges[answer as usize];
    if edge.idle {
        met.add(if edge.updates.is_empty() { "idle" } else { "idle, with updates" });
    }
}

#[test]
fn call_lists() {
    let met = calls::call_lists(51, |met, table, before, call, answer| {
        note_fault(met, table, before, call, answer);
        note_idle(met, table, call, answer);
    });
    met.at_least(300, &["idle", "idle, with updates"]);
    met.at_least(
        2_000,
        &["turn: 13", "turn: 14", "turn: 15", "turn: 16", "turn: 17", "turn: 18", "turn: 19"],
    );
    met.at_least(2_000, &["cycle: 13", "cycle: 14", "cycle: 15", "cycle: 16", "cycle: 17"]);
    met.at_least(2_000, &["cycle: 18", "cycle: 19", "cycle: a fault after a step"]);
    met.at_least(300, &["an update's fault: 15", "an update's fault: 16", "an update's fault: 17"]);
    met.at_least(1_000, &["an edge's fault: 15", "an edge's fault: 16", "two edges with different faults"]);
    met.at_least(
        1_000,
        &["an edge's fault where no other edge is open", "an edge's fault where one other edge is open"],
    );
    met.at_least(
        1_000,
        &["an edge's fault where several others are open", "an edge's fault above an open edge"],
    );
}

#[test]
fn runs_corrupted_by_one_clause_of_12() {
    calls::runs_corrupted_by_one_clause_of_12::<AutomataTable>(52);
}

#[test]
fn runs_at_the_ends_of_12() {
    calls::runs_at_the_ends_of_12::<AutomataTable>(53);
}

#[test]
fn refused_files() {
    calls::refused_files::<AutomataTable>(54).at_least(2_000, &["file: 11"]);
}

#[test]
fn many_cycles_at_once() {
    let met = calls::many_cycles_at_once::<AutomataTable>(55);
    met.at_least(500, &["first refused: 18", "first refused: 19"]);
    met.at_least(100, &["first refused: 15", "first refused: 16", "first refused: 17"]);
}

#[test]
fn the_longest_run_and_the_largest_tables() {
    let twin = |set: &[u8]| simulator::translation::twin(&ChartSet::read(set).expect("an accepted set"));
    calls::the_longest_run::<AutomataTable>(twin(&zero_watch()), AutomataRun::ZERO, 56);
    calls::the_longest_run::<AutomataTable>(twin(&two_waiting(250, 250)), AutomataRun::ZERO, 58);
    let mut random = Random::new(57);
    for _ in 0..6 {
        let set = valid_set(&mut random, Size::Largest);
        calls::a_largest_file::<AutomataTable>(&mut random, twin(&set), AutomataRun::ZERO, 2_000);
        let table = tables::hand_made(&mut random, &tables::LARGEST);
        calls::a_largest_file::<AutomataTable>(&mut random, table, AutomataRun::ZERO, 30);
        let set = most_resets(&mut random);
        calls::a_largest_file::<AutomataTable>(&mut random, twin(&set), AutomataRun::ZERO, 2_000);
    }
}
