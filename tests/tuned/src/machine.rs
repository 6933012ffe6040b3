//! What charts and automata share: the checks before a turn, turns, cycles and plays.

use crate::runs::{Run, Shared};
use crate::Refusal;

pub const MOST_CYCLES: u32 = 1_000_000;

/// A turn's answer.
#[derive(Clone, Copy, Debug, PartialEq, Eq)]
pub enum Answer {
    Taken(u16),
    Idle,
    Time,
}

impl Answer {
    /// The answer as the C interface gives it.
    #[inline(always)]
    pub fn code(self) -> i32 {
        match self {
            Answer::Taken(number) => i32::from(number),
            Answer::Idle => 65_534,
            Answer::Time => 65_535,
        }
    }
}

/// A decoded file, kept between calls. What a call refuses or faults leaves the run as it was.
pub trait Machine: Default {
    type Run: Run;

    /// Reads a file into the kept storage; where it is refused, the machine is of no use.
    fn read_into(&mut self, bytes: &[u8]) -> Result<(), Refusal>;

    fn start(&self) -> Self::Run;

    /// How many charts or automata.
    fn parts(&self) -> usize;

    /// Whether the run is possible, its course left aside.
    fn places_possible(&self, run: &Self::Run) -> bool;

    /// The turn of the part at the present position. On a fault only variables and events may have changed.
    fn part_turn(&self, run: &mut Self::Run) -> Result<Answer, Refusal>;

    /// What time does to ages or clocks.
    fn grow(&self, run: &mut Self::Run);

    fn read(bytes: &[u8]) -> Result<Self, Refusal> {
        let mut machine = Self::default();
        machine.read_into(bytes)?;
        Ok(machine)
    }

    /// Refusals 12, 13 and 14.
    #[inline(always)]
    fn ready(&self, run: &Self::Run, events: u32) -> Result<(), Refusal> {
        let shared = run.shared();
        let first = shared.position == 1;
        if !(self.places_possible(run) & course_possible(self.parts(), shared)) {
            Err(12)
        } else if !first && events != 0 {
            Err(13)
        } else if first && shared.cycles == MOST_CYCLES {
            Err(14)
        } else {
            Ok(())
        }
    }

    #[inline(always)]
    fn pass_time(&self, run: &mut Self::Run) {
        self.grow(run);
        let shared = run.shared_mut();
        shared.events = 0;
        shared.position = 1;
        shared.cycles += 1;
    }

    fn turn(&self, run: &mut Self::Run, events: u32) -> Result<Answer, Refusal> {
        self.ready(run, events)?;
        if run.shared().position as usize > self.parts() {
            self.pass_time(run);
            return Ok(Answer::Time);
        }
        let before = *run.shared();
        run.shared_mut().events |= events;
        self.part_turn(run).inspect_err(|_| *run.shared_mut() = before)
    }

    /// The turns up to time's, of a run that is ready.
    #[inline(always)]
    fn turns(&self, run: &mut Self::Run, events: u32) -> Result<(), Refusal> {
        let before = *run;
        run.shared_mut().events |= events;
        while run.shared().position as usize <= self.parts() {
            if let Err(fault) = self.part_turn(run) {
                *run = before;
                return Err(fault);
            }
        }
        self.pass_time(run);
        Ok(())
    }

    fn cycle(&self, run: &mut Self::Run, events: u32) -> Result<(), Refusal> {
        self.ready(run, events)?;
        self.turns(run, events)
    }

    /// Cycles until one is refused or faults; a number only if that is the first. A cycle that is done leaves a run that is
    /// possible, at position 1: after the first, only the count of cycles is looked at.
    fn play(&self, run: &mut Self::Run, masks: &[u32]) -> Result<usize, Refusal> {
        let Some((first, rest)) = masks.split_first() else {
            return Ok(0);
        };
        self.cycle(run, *first)?;
        for (played, events) in rest.iter().enumerate() {
            if run.shared().cycles == MOST_CYCLES || self.turns(run, *events).is_err() {
                return Ok(played + 1);
            }
        }
        Ok(masks.len())
    }
}

#[inline(always)]
fn course_possible(parts: usize, shared: &Shared) -> bool {
    let first = shared.position == 1;
    let most = if first { MOST_CYCLES } else { MOST_CYCLES - 1 };
    shared.position.wrapping_sub(1) <= parts as u32 && shared.cycles <= most && (!first || shared.events == 0)
}
