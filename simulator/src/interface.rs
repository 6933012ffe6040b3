//! The calls of the C interface with its return values: the answer, or minus the refusal's number;
//! then nothing lent has changed. Those of guards typed as a line stand in `guards`.

use crate::automata::{self, AutomataTable};
use crate::charts::{self, ChartSet};
use crate::path_back;
use crate::refusals::Refusal;
use crate::runs::Machine;
use crate::runs::{Answer, AutomataRun, ChartsRun};
use crate::translation;

pub(crate) fn returned<T>(result: Result<T, Refusal>, answer: impl FnOnce(T) -> i32) -> i32 {
    match result {
        Ok(value) => answer(value),
        Err(number) => -i32::try_from(number).expect("a refusal's number is small"),
    }
}

pub(crate) fn count(count: usize) -> i32 {
    i32::try_from(count).expect("fewer than 2,147,483,648")
}

/// Puts a run in its place only where the call was not refused.
fn placed<Run>(result: Result<Run, Refusal>, run: &mut Run) -> i32 {
    returned(result, |next| {
        *run = next;
        0
    })
}

pub fn charts_check(set: &[u8]) -> i32 {
    returned(ChartSet::read(set), |_| 0)
}

pub fn automata_check(table: &[u8]) -> i32 {
    returned(AutomataTable::read(table), |_| 0)
}

pub fn charts_start(set: &[u8], run: &mut ChartsRun) -> i32 {
    placed(charts::start(set), run)
}

pub fn automata_start(table: &[u8], run: &mut AutomataRun) -> i32 {
    placed(automata::start(table), run)
}

pub fn charts_turn(set: &[u8], run: &mut ChartsRun, events: u32) -> i32 {
    returned(ChartSet::read(set).and_then(|set| set.turn(run, events)), Answer::code)
}

pub fn automata_turn(table: &[u8], run: &mut AutomataRun, events: u32) -> i32 {
    returned(AutomataTable::read(table).and_then(|table| table.turn(run, events)), Answer::code)
}

pub fn charts_cycle(set: &[u8], run: &mut ChartsRun, events: u32) -> i32 {
    placed(charts::cycle(set, run, events), run)
}

pub fn automata_cycle(table: &[u8], run: &mut AutomataRun, events: u32) -> i32 {
    placed(automata::cycle(table, run, events), run)
}

pub fn charts_translate(set: &[u8], out: &mut [u8]) -> i32 {
    returned(translation::translate(set, out), count)
}

pub fn path_back(set: &[u8], path: &[u16], rows: &mut [u32]) -> i32 {
    returned(path_back::path_back(set, path, rows), count)
}

pub fn charts_play(set: &[u8], run: &mut ChartsRun, masks: &[u32]) -> i32 {
    returned(ChartSet::read(set).and_then(|set| set.play(run, masks)), count)
}

pub fn automata_play(table: &[u8], run: &mut AutomataRun, masks: &[u32]) -> i32 {
    returned(AutomataTable::read(table).and_then(|table| table.play(run, masks)), count)
}
