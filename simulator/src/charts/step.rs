//! A chart's turn, the passing of time, and the cycle.

use super::tables::{ChartSet, Trigger};
use crate::deeds::Scene;
use crate::expressions::Evaluator;
use crate::refusals::{Refusal, IMPOSSIBLE_STATE};
use crate::runs::{chart_in_turn, check_input, course_possible, Answer, ChartsRun, Machine};
use crate::timing::{timing_holds, Timing};
use crate::variables::{start_values, values_possible};

impl Machine for ChartSet {
    type Run = ChartsRun;

    fn check_before_turn(&self, run: &ChartsRun, events: u32) -> Result<(), Refusal> {
        if !self.possible(run) {
            return Err(IMPOSSIBLE_STATE);
        }
        check_input(run.position, run.cycles, events)
    }

    fn with_events(run: &ChartsRun, events: u32) -> ChartsRun {
        ChartsRun { events: run.events | events, ..*run }
    }

    fn advance(&self, run: &mut ChartsRun) -> Result<Answer, Refusal> {
        match chart_in_turn(self.charts(), run.position) {
            Some(chart) => self.chart_turn(run, chart),
            None => {
                self.pass_time(run);
                Ok(Answer::Time)
            }
        }
    }
}

impl ChartSet {
    /// Initial states, variables at start, no events, ages and count 0, position 1.
    pub fn start(&self) -> ChartsRun {
        let mut run = ChartsRun { variables: start_values(&self.variables), position: 1, ..ChartsRun::ZERO };
        run.states[..self.charts()].copy_from_slice(&self.initial);
        run
    }

    /// Check 12: whether a run of any content is possible for this set.
    pub fn possible(&self, run: &ChartsRun) -> bool {
        let (states, unused_states) = run.states.split_at(self.charts());
        let (ages, unused_ages) = run.ages.split_at(self.charts());
        let of_its_chart = |(chart, state): (usize, &u16)| {
            self.chart_of.get(usize::from(*state)).is_some_and(|owner| usize::from(*owner) == chart)
        };
        states.iter().enumerate().all(of_its_chart)
            && ages.iter().all(|age| *age <= run.cycles)
            && unused_states.iter().all(|state| *state == 0)
            && unused_ages.iter().all(|age| *age == 0)
            && values_possible(&self.variables, &run.variables)
            && course_possible(self.charts(), run.position, run.cycles, run.events)
    }

    fn chart_turn(&self, run: &mut ChartsRun, chart: usize) -> Result<Answer, Refusal> {
        let answer = match self.first_that_holds(run, chart)? {
            Some(transition) => {
                self.take(run, chart, transition)?;
                Answer::Taken(transition)
            }
            None => {
                self.wait(run, chart)?;
                Answer::Idle
            }
        };
        run.position += 1;
        Ok(answer)
    }

    /// The row of the present state is tried in order; the first that holds is taken.
    pub fn first_that_holds(&self, run: &ChartsRun, chart: usize) -> Result<Option<u16>, Refusal> {
        for transition in &self.rows[usize::from(run.states[chart])] {
            if self.holds(run, chart, *transition)? {
                return Ok(Some(*transition));
            }
        }
        Ok(None)
    }

    /// The trigger first, then the guard only if the trigger holds.
    fn holds(&self, run: &ChartsRun, chart: usize, transition: u16) -> Result<bool, Refusal> {
        let transition = &self.transitions[usize::from(transition)];
        let triggered = match transition.trigger {
            Trigger::None => true,
            Trigger::Event(event) => run.events & 1 << event != 0,
            Trigger::Timed(timing, ticks) => timing_holds(timing, run.ages[chart], ticks),
        };
        match transition.guard {
            Some(guard) if triggered => {
                Evaluator { nodes: &self.nodes, variables: &run.variables }.truth(guard)
            }
            _ => Ok(triggered),
        }
    }

    /// Runs the actions and enters the target; its age is 0, also by a self-transition.
    fn take(&self, run: &mut ChartsRun, chart: usize, transition: u16) -> Result<(), Refusal> {
        let transition = usize::from(transition);
        self.scene(run).run(self.deeds_of(transition))?;
        run.states[chart] = self.transitions[transition].target;
        run.ages[chart] = 0;
        Ok(())
    }

    /// The present state's waiting actions, where its age makes them due; the state is not left, and its age goes on.
    fn wait(&self, run: &mut ChartsRun, chart: usize) -> Result<(), Refusal> {
        match &self.waiting[usize::from(run.states[chart])] {
            Some(waiting) if timing_holds(Timing::Every, run.ages[chart], waiting.ticks) => {
                self.scene(run).run(&waiting.deeds)
            }
            _ => Ok(()),
        }
    }

    /// What the deeds of a run read and change.
    pub fn scene<'a>(&'a self, run: &'a mut ChartsRun) -> Scene<'a> {
        Scene {
            nodes: &self.nodes,
            variables: &self.variables,
            values: &mut run.variables,
            events: &mut run.events,
        }
    }

    /// Position n + 1: empties the events, adds 1 to each chart's age and to the cycle count.
    fn pass_time(&self, run: &mut ChartsRun) {
        run.events = 0;
        for age in &mut run.ages[..self.charts()] {
            *age += 1;
        }
        run.cycles += 1;
        run.position = 1;
    }
}
