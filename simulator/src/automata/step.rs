//! An automaton's turn by its one open edge, the passing of time, and the cycle.

use super::tables::{AutomataTable, Edge, Literal, LiteralTrigger};
use crate::deeds::Scene;
use crate::expressions::Evaluator;
use crate::refusals::{Refusal, IMPOSSIBLE_STATE, NO_EDGE_OPEN, SEVERAL_EDGES_OPEN};
use crate::runs::{chart_in_turn, check_input, course_possible, Answer, AutomataRun, Machine};
use crate::variables::{start_values, values_possible};

impl Machine for AutomataTable {
    type Run = AutomataRun;

    fn check_before_turn(&self, run: &AutomataRun, events: u32) -> Result<(), Refusal> {
        if !self.possible(run) {
            return Err(IMPOSSIBLE_STATE);
        }
        check_input(run.position, run.cycles, events)
    }

    fn with_events(run: &AutomataRun, events: u32) -> AutomataRun {
        AutomataRun { events: run.events | events, ..*run }
    }

    fn advance(&self, run: &mut AutomataRun) -> Result<Answer, Refusal> {
        match chart_in_turn(self.automata(), run.position) {
            Some(automaton) => {
                let edge = self.one_open_edge(run, automaton)?;
                self.take(run, automaton, edge)?;
                run.position += 1;
                Ok(Answer::Taken(edge))
            }
            None => {
                self.pass_time(run);
                Ok(Answer::Time)
            }
        }
    }
}

impl AutomataTable {
    /// Initial locations, variables at start, no events, clocks and count 0, position 1.
    pub fn start(&self) -> AutomataRun {
        let mut run =
            AutomataRun { variables: start_values(&self.variables), position: 1, ..AutomataRun::ZERO };
        run.locations[..self.automata()].copy_from_slice(&self.initial);
        run
    }

    /// Check 12: whether a run of any content is possible for this table.
    pub fn possible(&self, run: &AutomataRun) -> bool {
        let (locations, unused_locations) = run.locations.split_at(self.automata());
        let (clocks, unused_clocks) = run.clocks.split_at(self.clocks.len());
        let of_its_automaton = |(automaton, location): (usize, &u16)| {
            self.automaton_of
                .get(usize::from(*location))
                .is_some_and(|owner| usize::from(*owner) == automaton)
        };
        locations.iter().enumerate().all(of_its_automaton)
            && clocks.iter().zip(&self.clocks).all(|(value, clock)| *value <= clock.top())
            && unused_locations.iter().all(|location| *location == 0)
            && unused_clocks.iter().all(|clock| *clock == 0)
            && values_possible(&self.variables, &run.variables)
            && course_possible(self.automata(), run.position, run.cycles, run.events)
    }

    /// All leaving edges are read before any is counted: a fault comes before 18 and 19.
    fn one_open_edge(&self, run: &AutomataRun, automaton: usize) -> Result<u16, Refusal> {
        let open = self.open_edges(run, automaton)?;
        match open[..] {
            [] => Err(NO_EDGE_OPEN),
            [only] => Ok(only),
            _ => Err(SEVERAL_EDGES_OPEN),
        }
    }

    /// The open edges of an automaton, ascending; the lowest edge's fault counts.
    pub fn open_edges(&self, run: &AutomataRun, automaton: usize) -> Result<Vec<u16>, Refusal> {
        let mut open = Vec::new();
        for number in &self.leaving[usize::from(run.locations[automaton])] {
            if self.is_open(run, &self.edges[usize::from(*number)])? {
                open.push(*number);
            }
        }
        Ok(open)
    }

    /// Literals are read in order up to the first that fails.
    fn is_open(&self, run: &AutomataRun, edge: &Edge) -> Result<bool, Refusal> {
        for literal in &edge.literals {
            if self.condition(run, literal)? != literal.must_hold {
                return Ok(false);
            }
        }
        Ok(true)
    }

    /// The trigger and then, only if that holds, the guard.
    fn condition(&self, run: &AutomataRun, literal: &Literal) -> Result<bool, Refusal> {
        let triggered = match literal.trigger {
            LiteralTrigger::None => true,
            LiteralTrigger::Event(event) => run.events & 1 << event != 0,
            LiteralTrigger::Clock(clock) => {
                let clock = usize::from(clock);
                self.clocks[clock].holds(run.clocks[clock])
            }
        };
        match literal.guard {
            Some(guard) if triggered => {
                Evaluator { nodes: &self.nodes, variables: &run.variables }.truth(guard)
            }
            _ => Ok(triggered),
        }
    }

    /// Updates in file order, then resets.
    fn take(&self, run: &mut AutomataRun, automaton: usize, edge: u16) -> Result<(), Refusal> {
        let edge = &self.edges[usize::from(edge)];
        let mut scene = Scene {
            nodes: &self.nodes,
            variables: &self.variables,
            values: &mut run.variables,
            events: &mut run.events,
        };
        scene.run(&edge.updates)?;
        for clock in &edge.resets {
            run.clocks[usize::from(*clock)] = 0;
        }
        run.locations[automaton] = edge.target;
        Ok(())
    }

    /// Position n + 1: empties the events, lets every clock grow, adds 1 to the cycle count.
    fn pass_time(&self, run: &mut AutomataRun) {
        run.events = 0;
        for (value, clock) in run.clocks.iter_mut().zip(&self.clocks) {
            *value = clock.grown(*value);
        }
        run.cycles += 1;
        run.position = 1;
    }
}
