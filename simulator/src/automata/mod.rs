//! Automata files: the reader with refusal 11, the run, the turn by open edges and the cycle.

mod check;
mod clauses;
mod raw;
mod step;
mod tables;

pub use clauses::{broken_clauses, CLAUSES};
pub use raw::{RawEdge, RawLiteral, RawTable, RawUpdate};
pub use tables::{AutomataTable, Edge, Literal, LiteralTrigger};

use crate::refusals::Refusal;
use crate::runs::{Answer, AutomataRun, Machine};

/// 0 for an accepted table, else 11.
pub fn check(table: &[u8]) -> u32 {
    AutomataTable::read(table).err().unwrap_or(0)
}

pub fn start(table: &[u8]) -> Result<AutomataRun, Refusal> {
    Ok(AutomataTable::read(table)?.start())
}

/// One turn of a run of any content; the run given is not changed.
pub fn turn(table: &[u8], run: &AutomataRun, events: u32) -> Result<(Answer, AutomataRun), Refusal> {
    let table = AutomataTable::read(table)?;
    let mut next = *run;
    let answer = table.turn(&mut next, events)?;
    Ok((answer, next))
}

/// The turns from the present position up to n + 1.
pub fn cycle(table: &[u8], run: &AutomataRun, events: u32) -> Result<AutomataRun, Refusal> {
    let table = AutomataTable::read(table)?;
    let mut next = *run;
    table.cycle(&mut next, events)?;
    Ok(next)
}

/// Cycles until one is refused or faults: how many were played, and the run after them.
pub fn play(table: &[u8], run: &AutomataRun, masks: &[u32]) -> Result<(usize, AutomataRun), Refusal> {
    let table = AutomataTable::read(table)?;
    let mut next = *run;
    let played = table.play(&mut next, masks)?;
    Ok((played, next))
}
