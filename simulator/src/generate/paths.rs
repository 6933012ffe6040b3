//! Paths of twins: walks along leaving edges, and paths broken by each clause of refusal 20.

use crate::charts::ChartSet;
use crate::random::Random;
use crate::records::NONE;
use crate::timing::MOST_CYCLES;
use crate::translation::idle_edges;
use std::ops::Range;

/// Where the automata stand and whose turn it is; index n is time.
struct Walker<'a> {
    set: &'a ChartSet,
    /// The idle edges of each state.
    idle: Vec<Range<u16>>,
    standing: Vec<u16>,
    turn: usize,
    path: Vec<u16>,
}

impl Walker<'_> {
    /// The edges of the twin that leave a state: its transitions', and its idle ones.
    fn edges_leaving(&self, state: u16) -> Vec<u16> {
        let state = usize::from(state);
        self.set.rows[state].iter().copied().chain(self.idle[state].clone()).collect()
    }

    fn edges(&self) -> u16 {
        self.idle.last().expect("a state").end
    }

    /// The state that an edge leaves.
    fn source(&self, edge: u16) -> usize {
        match self.set.transitions.get(usize::from(edge)) {
            Some(transition) => usize::from(transition.source),
            None => self.idle.iter().position(|own| own.contains(&edge)).expect("an edge"),
        }
    }

    fn step(&mut self, random: &mut Random) {
        if self.turn == self.standing.len() {
            self.path.push(NONE);
            self.turn = 0;
            return;
        }
        let edge = random.pick(&self.edges_leaving(self.standing[self.turn]));
        if let Some(transition) = self.set.transitions.get(usize::from(edge)) {
            self.standing[self.turn] = transition.target;
        }
        self.path.push(edge);
        self.turn += 1;
    }
}

fn walker<'a>(random: &mut Random, set: &'a ChartSet, steps: usize) -> Walker<'a> {
    let (idle, standing) = (idle_edges(set), set.initial.clone());
    let mut walker = Walker { set, idle, standing, turn: 0, path: Vec::new() };
    for _ in 0..steps {
        walker.step(random);
    }
    walker
}

/// A path that keeps the rules and stops anywhere; guards play no part in it.
pub fn walk(random: &mut Random, set: &ChartSet, steps: usize) -> Vec<u16> {
    walker(random, set, steps).path
}

pub const BREAKS: [&str; 6] = [
    "names no edge",
    "time before its turn",
    "an edge where time is due",
    "an edge of another automaton",
    "an edge of another location",
    "any number",
];

/// A path broken in its last or an inner step by one of the `BREAKS`; none where the set has no
/// such step. "Any number" may keep the rules.
pub fn broken(random: &mut Random, set: &ChartSet, steps: usize, clause: &str) -> Option<Vec<u16>> {
    let mut walker = walker(random, set, steps);
    let at_time = clause == "an edge where time is due";
    while (walker.turn == walker.standing.len()) != at_time {
        walker.step(random);
    }
    let step = wrong_step(random, &walker, clause)?;
    let mut path = walker.path.clone();
    path.push(step);
    // What follows does not matter.
    path.extend((0..random.below(4)).map(|_| random.u16_between(0, u16::MAX)));
    Some(path)
}

fn wrong_step(random: &mut Random, walker: &Walker, clause: &str) -> Option<u16> {
    let edges = walker.edges();
    let here = walker.standing.get(walker.turn).map(|state| usize::from(*state));
    let fits = |edge: &u16| {
        let source = walker.source(*edge);
        let own = usize::from(walker.set.chart_of[source]) == walker.turn;
        match clause {
            "an edge where time is due" => true,
            "an edge of another automaton" => !own,
            _ => own && Some(source) != here,
        }
    };
    match clause {
        "names no edge" => Some(random.pick(&[edges, edges + 1, 1_000, 65_534])),
        "time before its turn" => Some(NONE),
        "any number" => Some(random.u16_between(0, edges + 2)),
        _ => {
            let found: Vec<u16> = (0..edges).filter(fits).collect();
            (!found.is_empty()).then(|| random.pick(&found))
        }
    }
}

/// A path of idle edges through all the cycles a run may do, and one step more if `over`. After
/// the first cycle, in which the initial states are left, every automaton idles, due or not due.
pub fn whole_run(random: &mut Random, set: &ChartSet, over: bool) -> Vec<u16> {
    let n = set.charts();
    let first = walker(random, set, n + 1);
    let idle: Vec<&Range<u16>> =
        first.standing.iter().map(|state| &first.idle[usize::from(*state)]).collect();
    let mut path = first.path.clone();
    for _ in 1..MOST_CYCLES {
        path.extend(idle.iter().map(|own| random.u16_between(own.start, own.end - 1)));
        path.push(NONE);
    }
    if over {
        path.push(random.pick(&[NONE, idle[0].start, 65_534]));
    }
    path
}
