//! Chart sets: the reader with its refusals 1 to 9 and 25, the run, the turn and the cycle.

mod check;
mod raw;
mod step;
mod tables;

pub use raw::{RawAction, RawSet, RawTransition};
pub use tables::{ChartSet, Transition, Trigger, Waiting};

use crate::files::Sections;
use crate::records::{whole_records, Record, CHART_LIMITS, RECORD_LEN};
use crate::refusals::{Refusal, WAITING_TIMES};
use crate::runs::{Answer, ChartsRun, Machine};

/// 0 for an accepted set, else the lowest refusal number that applies.
pub fn check(set: &[u8]) -> u32 {
    ChartSet::read(set).err().unwrap_or(0)
}

/// For each number from 1 to 9, and 25, whether its refusal applies, each asked by itself of the whole records of known kinds.
/// The lowest is the one given.
pub fn applying(set: &[u8]) -> [bool; WAITING_TIMES as usize + 1] {
    let records = whole_records(set);
    let known = |record: &&Record| CHART_LIMITS.iter().any(|(kind, _)| *kind == record[0]);
    let mut sorted: Vec<Record> = records.iter().filter(known).copied().collect();
    sorted.sort_by_key(|record| record[0]);
    let sections = Sections::of_ascending(&sorted, &CHART_LIMITS);
    let mut applies = [false; WAITING_TIMES as usize + 1];
    applies[1] = !set.len().is_multiple_of(RECORD_LEN);
    applies[2] = sorted != records;
    applies[3] = sections.miscounted();
    applies[4] = sections.has_stray_byte();
    for (number, broken) in check::applying(&RawSet::decode(&sections)) {
        applies[number as usize] = broken;
    }
    applies
}

pub fn start(set: &[u8]) -> Result<ChartsRun, Refusal> {
    Ok(ChartSet::read(set)?.start())
}

/// One turn of a run of any content; the run given is not changed.
pub fn turn(set: &[u8], run: &ChartsRun, events: u32) -> Result<(Answer, ChartsRun), Refusal> {
    let set = ChartSet::read(set)?;
    let mut next = *run;
    let answer = set.turn(&mut next, events)?;
    Ok((answer, next))
}

/// The turns from the present position up to n + 1.
pub fn cycle(set: &[u8], run: &ChartsRun, events: u32) -> Result<ChartsRun, Refusal> {
    let set = ChartSet::read(set)?;
    let mut next = *run;
    set.cycle(&mut next, events)?;
    Ok(next)
}

/// Cycles until one is refused or faults: how many were played, and the run after them.
pub fn play(set: &[u8], run: &ChartsRun, masks: &[u32]) -> Result<(usize, ChartsRun), Refusal> {
    let set = ChartSet::read(set)?;
    let mut next = *run;
    let played = set.play(&mut next, masks)?;
    Ok((played, next))
}
