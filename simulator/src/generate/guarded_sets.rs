//! Valid chart sets whose actions see each other's assignments through their guards.

use super::times::time_from;
use crate::assemble::*;
use crate::chart_sets::SetParts;
use crate::deeds::Deed;
use crate::expressions::Node;
use crate::operators::*;
use crate::random::Random;
use crate::records::*;
use crate::variables::Variable;

/// Both variables go from 0 to this.
const HIGHEST: i16 = 3;

/// One chart goes round its states 1 and 2, the other answers the event that actions raise. The actions of each owner
/// assign to two variables or raise, most of them where a guard over these variables holds.
pub fn guarded_set(random: &mut Random) -> Vec<u8> {
    let mut events: Vec<u8> = (0..EVENTS).collect();
    random.shuffle(&mut events);
    let transitions = vec![
        transition(1, 0, 1),
        moves(random, transition(1, 1, 2), events[0]),
        moves(random, transition(1, 2, 1), events[1]),
        transition(1, 3, 4),
        on_event(transition(1, 4, 4), events[2]),
    ];
    let mut maker = Maker::new(random, events[2], 2);
    let owners = [(EXIT, 1), (ENTRY, 1), (EXIT, 2), (ENTRY, 2), (ENTRY, 4)];
    let owners = owners.into_iter().chain((0..5).map(|own| (ON_TRANSITION, own)));
    let mut actions: Vec<Record> = owners.flat_map(|(place, owner)| maker.actions(place, owner)).collect();
    let nodes = maker.nodes;
    random.shuffle(&mut actions);
    SetParts {
        charts: vec![chart(0), chart(3)],
        states: [0, 0, 0, 1, 1].map(state).to_vec(),
        transitions,
        variables: variables(random),
        nodes,
        actions,
    }
    .bytes()
}

/// The two variables that the actions read and assign.
pub(super) fn variables(random: &mut Random) -> Vec<Variable> {
    let starts = [random.i16_between(0, HIGHEST), 0];
    starts.map(|start| Variable { lowest: 0, highest: HIGHEST, start }).to_vec()
}

fn moves(random: &mut Random, plain: Record, event: u8) -> Record {
    let whole_ticks = random.u32_between(0, 3);
    match random.below(4) {
        0 => on_event(plain, event),
        1 => every(plain, time_from(random, whole_ticks)),
        _ => plain,
    }
}

/// Makes actions that see each other, with their nodes.
pub(super) struct Maker<'a> {
    pub random: &'a mut Random,
    pub nodes: Vec<Node>,
    /// Guards and numbers may fault, and an assignment may leave its variable.
    daring: bool,
    raised: u8,
}

impl Maker<'_> {
    /// Daring once in so many times.
    pub fn new(random: &mut Random, raised: u8, seldom: usize) -> Maker<'_> {
        let daring = random.chance(1, seldom);
        Maker { random, nodes: Vec::new(), daring, raised }
    }

    fn push(&mut self, node: Node) -> u16 {
        self.nodes.push(node);
        u16::try_from(self.nodes.len() - 1).expect("few nodes")
    }

    fn of(&mut self, operator: u8, left: Node, right: Node) -> u16 {
        let operands = [self.push(left), self.push(right)];
        self.push(operation(operator, &operands))
    }

    fn value(&mut self) -> Node {
        variable_value(self.random.index(2))
    }

    fn bound(&mut self) -> Node {
        constant(i32::from(self.random.i16_between(0, HIGHEST)))
    }

    pub fn actions(&mut self, place: u8, owner: u16) -> Vec<Record> {
        (0..self.random.pick(&[0, 1, 2, 3])).map(|_| self.action(place, owner)).collect()
    }

    pub fn action(&mut self, place: u8, owner: u16) -> Record {
        let deed = match self.random.below(4) {
            0 => Deed::Raise { event: self.raised },
            _ => Deed::Assign { variable: self.random.u8_between(0, 1), node: self.number() },
        };
        let plain = action(place, owner, deed);
        if self.random.chance(1, 4) {
            return plain;
        }
        done_if(plain, self.guard())
    }

    /// Within the variables' range, but where daring at times outside it, or a fault.
    fn number(&mut self) -> u16 {
        let (value, bound) = (self.value(), self.bound());
        match self.random.below(if self.daring { 9 } else { 6 }) {
            0..=2 => self.push(bound),
            3..=5 => {
                let sum = self.of(SUM, value, bound);
                let count = self.push(constant(i32::from(HIGHEST) + 1));
                self.push(operation(REMAINDER, &[sum, count]))
            }
            6 => self.of(SUM, value, constant(1)),
            7 => self.of(QUOTIENT, bound, value),
            _ => self.of(SUM, constant(i32::MAX), value),
        }
    }

    /// A comparison of a variable; where daring, at times one that faults at some of its values.
    pub fn guard(&mut self) -> u16 {
        let (value, bound) = (self.value(), self.bound());
        let operator = self.random.pick(&[EQUAL, LESS, AT_MOST]);
        match self.random.below(if self.daring { 9 } else { 7 }) {
            0..=4 => self.of(operator, value, bound),
            5..=6 => {
                let compared = self.of(operator, value, bound);
                self.push(operation(NOT, &[compared]))
            }
            at => {
                let number = match at {
                    7 => self.of(REMAINDER, bound, value),
                    _ => self.of(PRODUCT, constant(i32::MAX), value),
                };
                let zero = self.push(constant(0));
                self.push(operation(operator, &[number, zero]))
            }
        }
    }
}
