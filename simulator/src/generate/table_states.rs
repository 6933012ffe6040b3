//! The clauses of check 12 that a run of automata breaks.

use crate::automata::AutomataTable;
use crate::runs::AutomataRun;
use crate::timing::MOST_CYCLES;

/// Each clause asked by itself. A number that names no location is of no automaton.
pub fn broken_clauses(table: &AutomataTable, run: &AutomataRun) -> Vec<&'static str> {
    let n = table.automata();
    let last = u32::try_from(n).expect("at most 8") + 1;
    let (locations, unused_locations) = run.locations.split_at(n);
    let (clocks, unused_clocks) = run.clocks.split_at(table.clocks.len());
    let (values, unused_values) = run.variables.split_at(table.variables.len());
    let owner = |location: &u16| table.automaton_of.get(usize::from(*location)).map(|own| usize::from(*own));
    let foreign = |(own, location): (usize, &u16)| owner(location).is_some_and(|of| of != own);
    let values = || table.variables.iter().zip(values);
    let clauses = [
        ("location of another automaton", locations.iter().enumerate().any(foreign)),
        ("no such location", locations.iter().any(|location| owner(location).is_none())),
        ("unused location", unused_locations.iter().any(|location| *location != 0)),
        ("clock over its top", clocks.iter().zip(&table.clocks).any(|(value, clock)| *value > clock.top())),
        ("unused clock", unused_clocks.iter().any(|value| *value != 0)),
        ("variable too low", values().any(|(variable, value)| *value < variable.lowest)),
        ("variable too high", values().any(|(variable, value)| *value > variable.highest)),
        ("unused variable", unused_values.iter().any(|value| *value != 0)),
        ("position 0", run.position == 0),
        ("position over n + 1", run.position > last),
        ("count over 1,000,000", run.cycles > MOST_CYCLES),
        ("count 1,000,000 past position 1", run.position > 1 && run.cycles == MOST_CYCLES),
        ("events at position 1", run.position == 1 && run.events != 0),
    ];
    clauses.into_iter().filter(|(_, broken)| *broken).map(|(clause, _)| clause).collect()
}

/// The leaving edges of an automaton's location, each read by itself: open, shut or a fault.
pub fn edges_read_alone(
    table: &AutomataTable,
    run: &AutomataRun,
    automaton: usize,
) -> Vec<Result<bool, u32>> {
    let location = usize::from(run.locations[automaton]);
    let mut alone = table.clone();
    let read = |edge: &u16| {
        alone.leaving[location] = vec![*edge];
        alone.open_edges(run, automaton).map(|open| !open.is_empty())
    };
    table.leaving[location].iter().map(read).collect()
}
