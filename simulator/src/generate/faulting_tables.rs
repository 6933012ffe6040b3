//! Small accepted tables in which faults meet: guards that fault on several edges of a location, beside open and shut ones, and
//! updates that fault, or whose guards do, when the one open edge is taken.

use crate::assemble::*;
use crate::deeds::Deed;
use crate::expressions::Node;
use crate::operators::{DIFFERENCE, EQUAL, LESS, PRODUCT, QUOTIENT, REMAINDER, SUM};
use crate::random::Random;
use crate::records::*;
use crate::timing::{Clock, Timing};
use crate::variables::Variable;

const VARIABLE: Variable = Variable { lowest: -3, highest: 3, start: 0 };

/// Expressions one after another; literals and updates may share their last nodes.
#[derive(Default)]
struct Pool {
    nodes: Vec<Node>,
    guards: Vec<u16>,
    numbers: Vec<u16>,
}

impl Pool {
    fn push(&mut self, node: Node) -> u16 {
        self.nodes.push(node);
        u16::try_from(self.nodes.len() - 1).expect("few nodes")
    }

    fn of(&mut self, operator: u8, left: i32, right: i32) -> u16 {
        let operands = [self.push(constant(left)), self.push(constant(right))];
        self.push(operation(operator, &operands))
    }

    /// A guard that compares a number with 0.
    fn guard(&mut self, number: u16) {
        let zero = self.push(constant(0));
        let guard = self.push(operation(EQUAL, &[number, zero]));
        self.guards.push(guard);
    }

    /// Guards that hold, fail, fault by 15 and 16, and hang on the variable; numbers of every outcome of an assignment.
    fn whole(random: &mut Random) -> Pool {
        let mut pool = Pool::default();
        for value in [0, 0, 0, 1] {
            let number = pool.push(constant(value));
            pool.guard(number);
        }
        let too_high = pool.of(random.pick(&[SUM, PRODUCT]), i32::MAX, 2);
        let too_low = pool.of(DIFFERENCE, i32::MIN, 1);
        let divided = pool.of(random.pick(&[QUOTIENT, REMAINDER]), 5, 0);
        [too_high, too_low, divided].into_iter().for_each(|number| pool.guard(number));
        let (value, bound) = (pool.push(variable_value(0)), pool.push(constant(1)));
        let less = pool.push(operation(LESS, &[value, bound]));
        pool.guards.push(less);
        let overflow = pool.of(SUM, i32::MAX, 1);
        let no_divisor = pool.of(QUOTIENT, 1, 0);
        let fine = pool.push(constant(2));
        let outside = pool.push(constant(random.pick(&[4, -4, 40_000])));
        let (old, one) = (pool.push(variable_value(0)), pool.push(constant(1)));
        let grown = pool.push(operation(SUM, &[old, one]));
        pool.numbers = vec![overflow, no_divisor, fine, outside, grown];
        pool
    }
}

pub fn faulting(random: &mut Random) -> Vec<u8> {
    let automata = 1 + random.below(2);
    let locations = automata * (1 + random.below(2));
    let edges = locations * (1 + random.below(4));
    let pool = Pool::whole(random);
    let mut records: Vec<Record> = Vec::new();
    records.extend((0u16..).take(automata).map(automaton));
    let owner = |number: usize| u8::try_from(number % automata).expect("at most 2");
    records.extend((0..locations).map(|number| location(owner(number))));
    records.extend((0..edges).map(|number| some_edge(random, number % locations, automata, locations)));
    let edge_numbers = 0..u16::try_from(edges).expect("few");
    for number in edge_numbers.clone() {
        let count = random.pick(&[0, 1, 1, 1, 2]);
        records.extend((0..count).map(|_| some_literal(random, number, &pool)));
    }
    records.push(clock(&Clock {
        timing: random.pick(&[Timing::After, Timing::Every]),
        ticks: random.pick(&[1, 2, 3]),
    }));
    records.push(variable(TWIN_VARIABLE, &VARIABLE));
    records.extend(pool.nodes.iter().map(|one| node(TWIN_NODE, one)));
    for number in edge_numbers.clone() {
        let count = random.pick(&[0, 0, 1, 2, 3]);
        records.extend((0..count).map(|_| some_update(random, number, &pool)));
    }
    records.extend(edge_numbers.filter(|_| random.chance(1, 3)).map(|number| reset(number, 0)));
    file(records)
}

fn some_edge(random: &mut Random, source: usize, automata: usize, locations: usize) -> Record {
    let own = source % automata;
    let others: Vec<usize> = (0..locations).filter(|other| other % automata == own).collect();
    let numbered = |location: usize| u16::try_from(location).expect("few");
    let target = random.pick(&others);
    edge(u8::try_from(own).expect("at most 2"), numbered(source), numbered(target), source == target)
}

fn some_literal(random: &mut Random, edge: u16, pool: &Pool) -> Record {
    let guard = random.pick(&pool.guards);
    let plain = literal(random.pick(&[MUST_HOLD, MUST_HOLD, MUST_NOT]), edge, guard);
    match random.below(8) {
        0 => reads_event(plain, random.pick(&[0, 1])),
        1 => reads_clock(plain, 0),
        _ => plain,
    }
}

fn some_update(random: &mut Random, edge: u16, pool: &Pool) -> Record {
    let plain = update(edge, some_deed(random, pool));
    if random.chance(1, 2) {
        return plain;
    }
    done_if(plain, random.pick(&pool.guards))
}

fn some_deed(random: &mut Random, pool: &Pool) -> Deed {
    match random.below(4) {
        0 => Deed::Raise { event: random.pick(&[0, 1]) },
        _ => Deed::Assign { variable: 0, node: random.pick(&pool.numbers) },
    }
}
