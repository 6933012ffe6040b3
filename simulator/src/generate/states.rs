//! Runs to call with: reached ones, late ones near the last cycle, and corrupted for each clause
//! of check 12.

use super::calls::{call_list, events_of_set, events_of_table};
use crate::automata::AutomataTable;
use crate::charts::ChartSet;
use crate::random::Random;
use crate::runs::{AutomataRun, ChartsRun, CHART_PLACES};
use crate::timing::MOST_CYCLES;
use crate::variables::Variable;

/// A run that some calls have led to; the fresh one if there are none.
pub fn reached_charts(random: &mut Random, set: &ChartSet, calls: usize) -> ChartsRun {
    let mut run = set.start();
    for call in call_list(random, set.charts(), events_of_set(set), calls) {
        // A refused or faulting call leaves the run as it was.
        let _ = call.on_charts(set, &mut run);
    }
    run
}

pub fn reached_automata(random: &mut Random, table: &AutomataTable, calls: usize) -> AutomataRun {
    let mut run = table.start();
    for call in call_list(random, table.automata(), events_of_table(table), calls) {
        let _ = call.on_automata(table, &mut run);
    }
    run
}

/// A cycle count at the end of what a run may do; past position 1 the last cycle is begun.
pub fn late_count(random: &mut Random, position: u32) -> u32 {
    let left = random.u32_between(0, 3);
    if position == 1 {
        MOST_CYCLES - left
    } else {
        MOST_CYCLES - 1 - left
    }
}

pub fn late_charts(random: &mut Random, set: &ChartSet, calls: usize) -> ChartsRun {
    let run = reached_charts(random, set, calls);
    ChartsRun { cycles: late_count(random, run.position), ..run }
}

pub fn late_automata(random: &mut Random, table: &AutomataTable, calls: usize) -> AutomataRun {
    let run = reached_automata(random, table, calls);
    AutomataRun { cycles: late_count(random, run.position), ..run }
}

/// A reached run whose charts stand at any age that is possible, 0 and those at which waiting actions are due among them.
pub fn aged_charts(random: &mut Random, set: &ChartSet, calls: usize) -> ChartsRun {
    let mut run = reached_charts(random, set, calls);
    run.cycles = run.cycles.max(random.pick(&[1, 20, 400_000]));
    for (age, state) in run.ages.iter_mut().zip(run.states).take(set.charts()) {
        let ticks = set.waiting[usize::from(state)].as_ref().map_or(1, |waiting| waiting.ticks);
        let due = ticks.saturating_mul(random.u32_between(0, 9));
        *age = random.pick(&[0, due, due, due + 1, run.cycles]).min(run.cycles);
    }
    run
}

/// A reached run of automata with any clocks that are possible.
pub fn aged_automata(random: &mut Random, table: &AutomataTable, calls: usize) -> AutomataRun {
    let mut run = reached_automata(random, table, calls);
    for (value, clock) in run.clocks.iter_mut().zip(&table.clocks) {
        *value = random.pick(&[0, 1, clock.top() - 1, clock.top(), *value]).min(clock.top());
    }
    run
}

/// A run of any bits, so that most places are impossible.
pub fn wild_charts(random: &mut Random) -> ChartsRun {
    let mut run = ChartsRun::ZERO;
    run.states.fill_with(|| random.u16_between(0, 200));
    run.ages.fill_with(|| random.u32_between(0, 10));
    run.variables.fill_with(|| random.i16_between(i16::MIN, i16::MAX));
    run.events = random.u32_between(0, u32::MAX);
    run.position = random.u32_between(0, 12);
    run.cycles = random.pick(&[0, 7, 999_999, 1_000_000, 1_000_001, u32::MAX]);
    run
}

pub fn wild_automata(random: &mut Random) -> AutomataRun {
    let mut run = AutomataRun::ZERO;
    run.locations.fill_with(|| random.u16_between(0, 200));
    run.clocks.fill_with(|| random.u16_between(0, u16::MAX));
    run.variables.fill_with(|| random.i16_between(i16::MIN, i16::MAX));
    run.events = random.u32_between(0, u32::MAX);
    run.position = random.u32_between(0, 12);
    run.cycles = random.pick(&[0, 7, 999_999, 1_000_000, 1_000_001, u32::MAX]);
    run
}

/// Makes a possible run impossible by one clause of check 12. False where the set has nothing for
/// it; then the run is as it was.
pub struct Corruption<Table, Run> {
    pub clause: &'static str,
    pub apply: fn(&mut Random, &Table, &mut Run) -> bool,
}

macro_rules! corruptions {
    ($($clause:literal $apply:expr;)*) => {
        &[$(Corruption { clause: $clause, apply: $apply }),*]
    };
}

pub const CHARTS_CORRUPTIONS: &[Corruption<ChartSet, ChartsRun>] = corruptions! {
    "state of another chart" |random, set, run| foreign(random, &set.chart_of, set.charts(), &mut run.states);
    "no such state" |random, set, run| no_such(random, set.chart_of.len(), set.charts(), &mut run.states);
    "unused state" |random, set, run| fill_unused(random, set.charts(), &mut run.states, 1);
    "age over cycle count" |random, set, run| { run.ages[random.below(set.charts())] = run.cycles + 1; true };
    "age far over cycle count" |random, set, run| { run.ages[random.below(set.charts())] = u32::MAX; true };
    "unused age" |random, set, run| fill_unused(random, set.charts(), &mut run.ages, 1);
    "variable too low" |random, set, run| too_low(random, &set.variables, &mut run.variables);
    "variable too high" |random, set, run| too_high(random, &set.variables, &mut run.variables);
    "unused variable" |random, set, run| fill_unused(random, set.variables.len(), &mut run.variables, -1);
    "position 0" |_, _, run| { run.position = 0; true };
    "position over n + 1" |random, set, run| { run.position = past(random, set.charts()); true };
    "count over 1,000,000" |random, _, run| over(random, run.position, &mut run.cycles);
    "count 1,000,000 past position 1" |_, _, run| last(run.position, &mut run.cycles);
    "events at position 1" |random, _, run| early(random, run.position, &mut run.events);
};

pub const AUTOMATA_CORRUPTIONS: &[Corruption<AutomataTable, AutomataRun>] = corruptions! {
    "location of another automaton"
        |random, table, run| foreign(random, &table.automaton_of, table.automata(), &mut run.locations);
    "no such location"
        |random, table, run| no_such(random, table.automaton_of.len(), table.automata(), &mut run.locations);
    "unused location" |random, table, run| fill_unused(random, table.automata(), &mut run.locations, 1);
    "clock over its top" clock_over_top;
    "unused clock" |random, table, run| fill_unused(random, table.clocks.len(), &mut run.clocks, 1);
    "variable too low" |random, table, run| too_low(random, &table.variables, &mut run.variables);
    "variable too high" |random, table, run| too_high(random, &table.variables, &mut run.variables);
    "unused variable" |random, table, run| fill_unused(random, table.variables.len(), &mut run.variables, 7);
    "position 0" |_, _, run| { run.position = 0; true };
    "position over n + 1" |random, table, run| { run.position = past(random, table.automata()); true };
    "count over 1,000,000" |random, _, run| over(random, run.position, &mut run.cycles);
    "count 1,000,000 past position 1" |_, _, run| last(run.position, &mut run.cycles);
    "events at position 1" |random, _, run| early(random, run.position, &mut run.events);
};

/// The clauses of check 12 that a run of charts breaks, each asked by itself. A number that names no state is of no chart.
pub fn broken_clauses(set: &ChartSet, run: &ChartsRun) -> Vec<&'static str> {
    let n = set.charts();
    let last = u32::try_from(n).expect("at most 8") + 1;
    let (states, unused_states) = run.states.split_at(n);
    let (ages, unused_ages) = run.ages.split_at(n);
    let (values, unused_values) = run.variables.split_at(set.variables.len());
    let chart_of = |state: &u16| set.chart_of.get(usize::from(*state)).map(|chart| usize::from(*chart));
    let values = || set.variables.iter().zip(values);
    let clauses = [
        (
            "state of another chart",
            states.iter().enumerate().any(|(own, state)| chart_of(state).is_some_and(|chart| chart != own)),
        ),
        ("no such state", states.iter().any(|state| chart_of(state).is_none())),
        ("unused state", unused_states.iter().any(|state| *state != 0)),
        ("age over cycle count", ages.iter().any(|age| *age > run.cycles)),
        ("unused age", unused_ages.iter().any(|age| *age != 0)),
        ("variable too low", values().any(|(variable, value)| *value < variable.lowest)),
        ("variable too high", values().any(|(variable, value)| *value > variable.highest)),
        ("unused variable", unused_values.iter().any(|value| *value != 0)),
        ("position 0", run.position == 0),
        ("position over n + 1", run.position > last),
        ("count over 1,000,000", run.cycles > MOST_CYCLES),
        ("count 1,000,000 past position 1", run.position > 1 && run.cycles == MOST_CYCLES),
        ("events at position 1", run.position == 1 && run.events != 0),
    ];
    clauses.into_iter().filter(|(_, broken)| *broken).map(|(clause, _)| clause).collect()
}

fn foreign(random: &mut Random, owner: &[u8], charts: usize, present: &mut [u16; CHART_PLACES]) -> bool {
    let chart = random.below(charts);
    let others: Vec<u16> =
        (0u16..).zip(owner).filter(|(_, of)| usize::from(**of) != chart).map(|(state, _)| state).collect();
    if others.is_empty() {
        return false;
    }
    present[chart] = random.pick(&others);
    true
}

fn no_such(random: &mut Random, states: usize, charts: usize, present: &mut [u16; CHART_PLACES]) -> bool {
    let first = u16::try_from(states).expect("at most 128");
    present[random.below(charts)] = random.pick(&[first, first + 1, u16::MAX]);
    true
}

/// Puts a value into a place past those in use.
fn fill_unused<T>(random: &mut Random, used: usize, places: &mut [T], value: T) -> bool {
    let count = places.len();
    if used == count {
        return false;
    }
    let some = used + random.below(count - used);
    places[random.pick(&[used, count - 1, some])] = value;
    true
}

fn clock_over_top(random: &mut Random, table: &AutomataTable, run: &mut AutomataRun) -> bool {
    if table.clocks.is_empty() {
        return false;
    }
    let clock = random.below(table.clocks.len());
    let top = table.clocks[clock].top();
    run.clocks[clock] = random.pick(&[top + 1, top + 1, u16::MAX]);
    true
}

fn too_low(random: &mut Random, variables: &[Variable], values: &mut [i16]) -> bool {
    let fit: Vec<usize> = (0..variables.len()).filter(|at| variables[*at].lowest > i16::MIN).collect();
    if fit.is_empty() {
        return false;
    }
    let at = random.pick(&fit);
    values[at] = random.pick(&[variables[at].lowest - 1, i16::MIN]);
    true
}

fn too_high(random: &mut Random, variables: &[Variable], values: &mut [i16]) -> bool {
    let fit: Vec<usize> = (0..variables.len()).filter(|at| variables[*at].highest < i16::MAX).collect();
    if fit.is_empty() {
        return false;
    }
    let at = random.pick(&fit);
    values[at] = random.pick(&[variables[at].highest + 1, i16::MAX]);
    true
}

fn past(random: &mut Random, charts: usize) -> u32 {
    let last = u32::try_from(charts).expect("at most 8") + 1;
    random.pick(&[last + 1, last + 2, u32::MAX])
}

fn over(random: &mut Random, position: u32, cycles: &mut u32) -> bool {
    if position == 1 {
        *cycles = random.pick(&[MOST_CYCLES + 1, u32::MAX]);
    }
    position == 1
}

fn last(position: u32, cycles: &mut u32) -> bool {
    if position > 1 {
        *cycles = MOST_CYCLES;
    }
    position > 1
}

fn early(random: &mut Random, position: u32, events: &mut u32) -> bool {
    if position == 1 {
        *events = random.pick(&[1, 1 << 31, u32::MAX]);
    }
    position == 1
}
