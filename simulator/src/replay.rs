//! The replay programs' lines, as text.

use crate::automata::AutomataTable;
use crate::charts::ChartSet;
use crate::refusals::Refusal;
use crate::runs::{Answer, AutomataRun, ChartsRun, Machine};

pub struct Replay {
    /// One line a chart's or automaton's turn: cycle, chart, transition or -, state after, variables.
    pub lines: String,
    /// The refusal or fault that ended the replay, if one did.
    pub refusal: Option<Refusal>,
}

/// What a line tells of a run: the place where a part stands, the cycles done, and the variables in use.
trait Told: Machine {
    fn parts(&self) -> usize;
    fn told(&self, run: &Self::Run, part: usize) -> (u16, u32, Vec<i16>);
}

impl Told for ChartSet {
    fn parts(&self) -> usize {
        self.charts()
    }

    fn told(&self, run: &ChartsRun, part: usize) -> (u16, u32, Vec<i16>) {
        (run.states[part], run.cycles, run.variables[..self.variables.len()].to_vec())
    }
}

impl Told for AutomataTable {
    fn parts(&self) -> usize {
        self.automata()
    }

    fn told(&self, run: &AutomataRun, part: usize) -> (u16, u32, Vec<i16>) {
        (run.locations[part], run.cycles, run.variables[..self.variables.len()].to_vec())
    }
}

/// Plays a set by event masks of four bytes, little-endian, up to a refusal, a partial mask or
/// the end. Turns are taken one by one, so the lines before a fault in the same cycle stand.
pub fn replay(set: &[u8], input: &[u8]) -> Replay {
    let mut lines = String::new();
    let played = ChartSet::read(set).and_then(|set| play(&set, set.start(), input, &mut lines));
    Replay { lines, refusal: played.err() }
}

/// The same of a table of automata.
pub fn replay_twin(table: &[u8], input: &[u8]) -> Replay {
    let mut lines = String::new();
    let played = AutomataTable::read(table).and_then(|table| play(&table, table.start(), input, &mut lines));
    Replay { lines, refusal: played.err() }
}

fn play<M: Told>(machine: &M, mut run: M::Run, input: &[u8], lines: &mut String) -> Result<(), Refusal> {
    for mask in input.as_chunks::<4>().0 {
        play_cycle(machine, &mut run, u32::from_le_bytes(*mask), lines)?;
    }
    Ok(())
}

fn play_cycle<M: Told>(machine: &M, run: &mut M::Run, mask: u32, lines: &mut String) -> Result<(), Refusal> {
    let mut events = mask;
    for part in 0..machine.parts() {
        let answer = machine.turn(run, events)?;
        lines.push_str(&line(machine, run, part, answer));
        events = 0;
    }
    machine.turn(run, 0)?;
    Ok(())
}

fn line<M: Told>(machine: &M, run: &M::Run, part: usize, answer: Answer) -> String {
    let taken = match answer {
        Answer::Taken(number) => number.to_string(),
        _ => String::from("-"),
    };
    let (place, cycles, variables) = machine.told(run, part);
    let mut line = format!("{cycles} {part} {taken} {place}");
    for value in variables {
        line.push_str(&format!(" {value}"));
    }
    line.push('\n');
    line
}
