//! The lent runs, the answers of turns, and the checks that charts and automata share.

use crate::records::{most, CHART, CLOCK};
use crate::refusals::{Refusal, CYCLES_DONE, EVENTS_ELSEWHERE};
use crate::timing::MOST_CYCLES;
use crate::variables::{Values, VARIABLE_PLACES};

pub const CHART_PLACES: usize = most(CHART);
pub const CLOCK_PLACES: usize = most(CLOCK);

#[repr(C)]
#[derive(Clone, Copy, Debug, PartialEq, Eq)]
pub struct ChartsRun {
    pub states: [u16; CHART_PLACES],
    pub ages: [u32; CHART_PLACES],
    pub variables: Values,
    pub events: u32,
    pub position: u32,
    pub cycles: u32,
}

#[repr(C)]
#[derive(Clone, Copy, Debug, PartialEq, Eq)]
pub struct AutomataRun {
    pub locations: [u16; CHART_PLACES],
    pub clocks: [u16; CLOCK_PLACES],
    pub variables: Values,
    pub events: u32,
    pub position: u32,
    pub cycles: u32,
}

impl ChartsRun {
    /// All places zero: no start of any set, since position 0 is none.
    pub const ZERO: ChartsRun = ChartsRun {
        states: [0; CHART_PLACES],
        ages: [0; CHART_PLACES],
        variables: [0; VARIABLE_PLACES],
        events: 0,
        position: 0,
        cycles: 0,
    };
}

impl AutomataRun {
    pub const ZERO: AutomataRun = AutomataRun {
        locations: [0; CHART_PLACES],
        clocks: [0; CLOCK_PLACES],
        variables: [0; VARIABLE_PLACES],
        events: 0,
        position: 0,
        cycles: 0,
    };
}

/// A turn's answer. Only a chart's turn answers `Idle`; a twin's idle edge is taken by number.
#[derive(Clone, Copy, Debug, PartialEq, Eq)]
pub enum Answer {
    Taken(u16),
    Idle,
    Time,
}

impl Answer {
    /// The answer as the C interface gives it.
    pub fn code(self) -> i32 {
        match self {
            Answer::Taken(number) => i32::from(number),
            Answer::Idle => 65_534,
            Answer::Time => 65_535,
        }
    }
}

/// The part of check 12 about position, cycle count and present events, for `n` charts.
pub fn course_possible(n: usize, position: u32, cycles: u32, events: u32) -> bool {
    let last = u32::try_from(n).expect("at most 8") + 1;
    let most = if position > 1 { MOST_CYCLES - 1 } else { MOST_CYCLES };
    (1..=last).contains(&position) && cycles <= most && (position != 1 || events == 0)
}

/// Refusals 13 and 14, in that order.
pub fn check_input(position: u32, cycles: u32, events: u32) -> Result<(), Refusal> {
    if position != 1 && events != 0 {
        return Err(EVENTS_ELSEWHERE);
    }
    if position == 1 && cycles == MOST_CYCLES {
        return Err(CYCLES_DONE);
    }
    Ok(())
}

/// The index of the chart whose turn it is; none at position n + 1, where time passes.
pub fn chart_in_turn(n: usize, position: u32) -> Option<usize> {
    let index = usize::try_from(position).expect("a position is small") - 1;
    (index < n).then_some(index)
}

/// Charts or automata, as calls see them: what is said once of both.
pub trait Machine {
    type Run: Copy;

    /// Refusals 12, 13 and 14.
    fn check_before_turn(&self, run: &Self::Run, events: u32) -> Result<(), Refusal>;

    /// The run with the input events, which are given at position 1.
    fn with_events(run: &Self::Run, events: u32) -> Self::Run;

    /// The turn of the present position, unchecked; after a fault the run is of no use.
    fn advance(&self, run: &mut Self::Run) -> Result<Answer, Refusal>;

    /// One turn; a refusal or fault leaves the run as it was.
    fn turn(&self, run: &mut Self::Run, events: u32) -> Result<Answer, Refusal> {
        self.check_before_turn(run, events)?;
        let mut next = Self::with_events(run, events);
        let answer = self.advance(&mut next)?;
        *run = next;
        Ok(answer)
    }

    /// The turns from the present position up to n + 1; a refusal or fault leaves the run as it was.
    fn cycle(&self, run: &mut Self::Run, events: u32) -> Result<(), Refusal> {
        self.check_before_turn(run, events)?;
        let mut next = Self::with_events(run, events);
        while self.advance(&mut next)? != Answer::Time {}
        *run = next;
        Ok(())
    }

    /// One cycle for each mask, until one is refused or faults; a number only if that is the first.
    fn play(&self, run: &mut Self::Run, masks: &[u32]) -> Result<usize, Refusal> {
        for (played, events) in masks.iter().enumerate() {
            match self.cycle(run, *events) {
                Err(number) if played == 0 => return Err(number),
                Err(_) => return Ok(played),
                Ok(()) => {}
            }
        }
        Ok(masks.len())
    }
}
