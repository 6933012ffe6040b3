//! Automata tables: refusal 11, the decoded table, an automaton's turn.

use crate::files::{records, sections, span, Owned, Record, NONE};
use crate::machine::{Answer, Machine};
use crate::nodes::Nodes;
use crate::runs::{do_deeds, homes_possible, AutomataRun, Deed, Shared, Variables, CLOCKS, PARTS};
use crate::Refusal;

const MOST: [usize; 9] = [8, 128, 512, 2_944, CLOCKS, 64, 1_024, 7_168, 4_352];

#[derive(Clone, Copy, Default)]
struct Edge {
    target: u16,
    number: u16,
}

#[derive(Clone, Copy, Default)]
struct Literal {
    mask: u32,
    clock: u16,
    guard: u16,
    trigger: u8,
    must: bool,
}

/// Of each clock its ticks, which are its top, and where it goes from there; 0 where there is none.
struct Clocks {
    ticks: [u16; CLOCKS],
    past_top: [u16; CLOCKS],
    count: usize,
}

impl Clocks {
    /// The clocks, and whether a record is wrong.
    fn read(section: &[u8]) -> (Clocks, bool) {
        let none = [0; CLOCKS];
        let mut clocks = Clocks { ticks: none, past_top: none, count: section.len() / 16 };
        let mut wrong = false;
        let places = clocks.ticks.iter_mut().zip(&mut clocks.past_top);
        for ((top, past_top), record) in places.zip(records(section)) {
            let (timing, ticks) = (record.byte(1), record.u16(2));
            wrong |=
                record.strays(span(0, 3)) || !(2..=3).contains(&timing) || ticks.wrapping_sub(1) >= 36_000;
            *top = ticks;
            *past_top = if timing == 2 { ticks } else { 1 };
        }
        (clocks, wrong)
    }
}

/// A table, decoded. Kept between files, so that reading one allocates nothing.
pub struct Table {
    automata: usize,
    initial: [u16; PARTS],
    /// The automaton of each location; 255 where there is none.
    homes: [u8; 128],
    /// By location.
    leaving: Owned<Edge, 130>,
    /// By edge.
    literals: Owned<Literal, 514>,
    updates: Owned<Deed, 514>,
    resets: Owned<u16, 514>,
    clocks: Clocks,
    variables: Variables,
    nodes: Nodes,
}

impl Default for Table {
    fn default() -> Table {
        Table {
            automata: 0,
            initial: [0; PARTS],
            homes: [255; 128],
            leaving: Owned::default(),
            literals: Owned::default(),
            updates: Owned::default(),
            resets: Owned::default(),
            clocks: Clocks::read(&[]).0,
            variables: Variables::read(&[]).0,
            nodes: Nodes::default(),
        }
    }
}

#[inline(always)]
fn edge_of(record: &Record) -> usize {
    usize::from(record.u16(2))
}

/// Each of these reads a section, and finds whether a record is wrong.
impl Table {
    fn read_locations(&mut self, section: &[u8]) -> bool {
        let mut wrong = false;
        self.homes = [255; 128];
        for (location, record) in records(section).enumerate() {
            wrong |= record.strays(span(0, 1)) || usize::from(record.byte(1)) >= self.automata;
            self.homes[location & 127] = record.byte(1);
        }
        wrong
    }

    /// The automaton is one of the table's, whose number no unused place has.
    #[inline(always)]
    fn lies_in(&self, location: u16, automaton: u8) -> bool {
        location < 128 && self.homes[usize::from(location) & 127] == automaton
    }

    fn read_automata(&mut self, section: &[u8]) -> bool {
        let mut wrong = false;
        self.initial = [0; PARTS];
        for (automaton, record) in records(section).enumerate() {
            self.initial[automaton & 7] = record.u16(2);
            wrong |= record.strays(span(0, 0) | span(2, 3)) || !self.lies_in(record.u16(2), automaton as u8);
        }
        wrong
    }

    fn edges_wrong(&self, section: &[u8]) -> bool {
        let mut wrong = false;
        for record in records(section) {
            let (automaton, idle) = (record.byte(1), record.byte(6));
            let (source, target) = (record.u16(2), record.u16(4));
            wrong |= record.strays(span(0, 6))
                || idle > 1
                || usize::from(automaton) >= self.automata
                || !self.lies_in(source, automaton)
                || !self.lies_in(target, automaton)
                || idle == 1 && source != target;
        }
        wrong
    }

    fn literals_wrong(&self, section: &[u8], edges: usize) -> bool {
        let mut wrong = false;
        for record in records(section) {
            let (event, clock, guard) = (record.byte(5), record.u16(6), record.u16(8));
            let (named, known) = match record.byte(4) {
                0 => (0, true),
                1 => (span(5, 5), event < 32),
                2 => (span(6, 7), usize::from(clock) < self.clocks.count),
                _ => (0, false),
            };
            wrong |= !known
                || record.strays(span(0, 4) | span(8, 9) | named)
                || record.byte(1).wrapping_sub(1) >= 2
                || edge_of(&record) >= edges
                || guard != NONE && !self.nodes.is_truth(guard);
        }
        wrong
    }

    fn updates_wrong(&self, section: &[u8], edges: usize) -> bool {
        let mut wrong = false;
        for record in records(section) {
            let (x, node, guard) = (record.byte(4), record.u16(6), record.guard());
            let (named, known) = match record.byte(1) {
                1 => (span(6, 7), usize::from(x) < self.variables.count && self.nodes.is_number(node)),
                2 => (0, x < 32),
                _ => (0, false),
            };
            wrong |= !known
                || record.strays(span(0, 4) | span(8, 9) | named)
                || edge_of(&record) >= edges
                || guard != NONE && !self.nodes.is_truth(guard);
        }
        wrong
    }

    fn resets_wrong(&self, section: &[u8], edges: usize) -> bool {
        let mut wrong = false;
        for record in records(section) {
            wrong |= record.strays(span(0, 0) | span(2, 5))
                || edge_of(&record) >= edges
                || usize::from(record.u16(4)) >= self.clocks.count;
        }
        wrong
    }

    fn read_nodes(&mut self, variables: &[u8], nodes: &[u8]) -> bool {
        let (variables, stray, broken) = Variables::read(variables);
        self.variables = variables;
        let found = self.nodes.read_into(nodes, self.variables.count);
        stray | broken
            || found.anything()
            || !self.nodes.ordered
            || self.nodes.uses.iter().any(|uses| *uses > 1)
    }

    fn fits(&mut self, bytes: &[u8]) -> bool {
        let Ok([automata, locations, edges, literals, clocks, variables, nodes, updates, resets]) =
            sections(bytes, 33, &MOST)
        else {
            return false;
        };
        let count = edges.len() / 16;
        self.automata = automata.len() / 16;
        let (clocks, clocks_wrong) = Clocks::read(clocks);
        self.clocks = clocks;
        if clocks_wrong
            || self.read_locations(locations)
            || self.read_automata(automata)
            || self.edges_wrong(edges)
            || self.read_nodes(variables, nodes)
            || self.literals_wrong(literals, count)
            || self.updates_wrong(updates, count)
            || self.resets_wrong(resets, count)
        {
            return false;
        }
        self.order(locations.len() / 16, edges, [literals, updates, resets]);
        true
    }

    fn order(&mut self, locations: usize, edges: &[u8], [literals, updates, resets]: [&[u8]; 3]) {
        let count = edges.len() / 16;
        self.leaving.fill(locations, records(edges), edge_of, |number, record| Edge {
            target: record.u16(4),
            number: number as u16,
        });
        self.literals.fill(count, records(literals), edge_of, |_, record| Literal {
            mask: 1u32.wrapping_shl(u32::from(record.byte(5))),
            clock: record.u16(6),
            guard: record.u16(8),
            trigger: record.byte(4),
            must: record.byte(1) == 1,
        });
        self.updates.fill(count, records(updates), edge_of, |_, record| {
            Deed::of(record.byte(1), record.byte(4), record.u16(6), record.guard())
        });
        self.resets.fill(count, records(resets), edge_of, |_, record| record.u16(4));
    }
}

impl Table {
    #[inline(always)]
    fn is_open(&self, run: &AutomataRun, edge: &Edge) -> Result<bool, Refusal> {
        for literal in self.literals.of(usize::from(edge.number)) {
            let triggered = match literal.trigger {
                0 => true,
                1 => run.shared.events & literal.mask != 0,
                _ => {
                    let clock = usize::from(literal.clock);
                    run.clocks[clock] == self.clocks.ticks[clock]
                }
            };
            let guard = literal.guard;
            let holds = triggered && (guard == NONE || self.nodes.truth(&run.shared.variables, guard)?);
            if holds != literal.must {
                return Ok(false);
            }
        }
        Ok(true)
    }

    /// Faults 18 and 19, and the first of the readings in ascending order.
    #[inline(always)]
    fn open_edge(&self, run: &AutomataRun, location: u16) -> Result<&Edge, Refusal> {
        let mut open = None;
        let mut many = false;
        for edge in self.leaving.of(usize::from(location)) {
            if self.is_open(run, edge)? {
                many |= open.is_some();
                open = Some(edge);
            }
        }
        match open {
            None => Err(18),
            Some(_) if many => Err(19),
            Some(edge) => Ok(edge),
        }
    }
}

impl Machine for Table {
    type Run = AutomataRun;

    fn read_into(&mut self, bytes: &[u8]) -> Result<(), Refusal> {
        if self.fits(bytes) {
            Ok(())
        } else {
            Err(11)
        }
    }

    fn start(&self) -> AutomataRun {
        AutomataRun {
            locations: self.initial,
            clocks: [0; CLOCKS],
            shared: Shared::fresh(self.variables.start),
        }
    }

    #[inline(always)]
    fn parts(&self) -> usize {
        self.automata
    }

    #[inline(always)]
    fn places_possible(&self, run: &AutomataRun) -> bool {
        let mut over = 0u16;
        for clock in 0..CLOCKS {
            over |= run.clocks[clock].saturating_sub(self.clocks.ticks[clock]);
        }
        (over == 0)
            & homes_possible(&self.homes, self.automata, &run.locations)
            & self.variables.possible(&run.shared.variables)
    }

    #[inline(always)]
    fn part_turn(&self, run: &mut AutomataRun) -> Result<Answer, Refusal> {
        let automaton = (run.shared.position as usize - 1) & (PARTS - 1);
        let edge = self.open_edge(run, run.locations[automaton])?;
        let number = usize::from(edge.number);
        do_deeds(&self.nodes, &self.variables, self.updates.of(number), &mut run.shared)?;
        for clock in self.resets.of(number) {
            run.clocks[usize::from(*clock)] = 0;
        }
        run.locations[automaton] = edge.target;
        run.shared.position += 1;
        Ok(Answer::Taken(edge.number))
    }

    #[inline(always)]
    fn grow(&self, run: &mut AutomataRun) {
        let used = self.clocks.count.next_multiple_of(16).min(CLOCKS);
        let (top, past_top) = (&self.clocks.ticks[..used], &self.clocks.past_top[..used]);
        let clocks = &mut run.clocks[..used];
        for clock in 0..used {
            let x = clocks[clock];
            clocks[clock] = if x == top[clock] { past_top[clock] } else { x.wrapping_add(1) };
        }
    }
}
