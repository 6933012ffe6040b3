//! When a run of charts and a run of their twin correspond.

use crate::automata::AutomataTable;
use crate::runs::{AutomataRun, ChartsRun};

/// Position, cycle count, variables and present events are equal, each automaton stands at its
/// chart's state, and that state's age corresponds to the clocks read there.
pub fn correspond(twin: &AutomataTable, charts: &ChartsRun, automata: &AutomataRun) -> bool {
    charts.position == automata.position
        && charts.cycles == automata.cycles
        && charts.variables == automata.variables
        && charts.events == automata.events
        && charts.states == automata.locations
        && (0..twin.automata()).all(|chart| clocks_correspond(twin, charts, automata, chart))
}

fn clocks_correspond(twin: &AutomataTable, charts: &ChartsRun, automata: &AutomataRun, chart: usize) -> bool {
    let age = charts.ages[chart];
    twin.clocks_read_at(automata.locations[chart]).all(|clock| {
        let clock = usize::from(clock);
        automata.clocks[clock] == twin.clocks[clock].at_age(age)
    })
}
