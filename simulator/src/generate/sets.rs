//! Valid chart sets: tiny, middling, and of the largest sizes.

use super::expressions::{number_size_possible, number_within, renumber, Grower, Style};
use super::guarded_sets::guarded_set;
use super::idling_sets::idling_set;
use super::times::time_from;
use super::waiting_sets::waiting_set;
use crate::assemble::*;
use crate::chart_sets::SetParts;
use crate::deeds::Deed;
use crate::expressions::Node;
use crate::random::Random;
use crate::records::*;
use crate::variables::Variable;

#[derive(Clone, Copy, Debug, PartialEq, Eq)]
pub enum Size {
    Tiny,
    Middling,
    Largest,
}

/// The numbers of things to make, and how bold they are.
struct Plan {
    charts: usize,
    states: usize,
    transitions: usize,
    variables: usize,
    actions: usize,
    /// The exact number of nodes, or a small size for each expression.
    nodes: Option<usize>,
    /// How often in 16 an action has a guard, a guard may fault, and an assignment may leave its variable.
    guarded_actions: usize,
    daring_guards: usize,
    daring_deeds: usize,
    /// The last place that actions have: with waiting ones, or without.
    last_place: u8,
    /// The events that triggers and raises use.
    events: Vec<u8>,
}

impl Plan {
    fn new(random: &mut Random, size: Size) -> Plan {
        let (charts, states, transitions, variables, actions, nodes) = match size {
            Size::Tiny => (1 + random.below(2), 5, 8, random.below(4), random.below(8), None),
            Size::Middling => (1 + random.below(5), 28, 70, random.below(12), random.below(70), None),
            Size::Largest => (8, 128, 256, 64, 512, Some(1_024)),
        };
        let exact = size == Size::Largest;
        Plan {
            charts,
            states: if exact { states } else { 2 * charts + random.below(states) },
            transitions: if exact { transitions } else { charts + random.below(transitions) },
            variables,
            actions,
            nodes,
            guarded_actions: random.pick(if exact { &[0, 2, 2, 2] } else { &[0, 3, 6, 12] }),
            // In the largest sets there are enough expressions for a few daring ones to be met.
            daring_guards: random.pick(if exact { &[0, 0, 1, 1] } else { &[0, 0, 1, 4] }),
            daring_deeds: random.pick(if exact { &[0, 0, 0, 1] } else { &[0, 0, 1, 6] }),
            last_place: random.pick(&[ON_TRANSITION, WAITING]),
            events: (0..2 + random.below(5)).map(|_| random.u8_between(0, EVENTS - 1)).collect(),
        }
    }
}

/// A set that is accepted.
pub fn valid_set(random: &mut Random, size: Size) -> Vec<u8> {
    let plan = Plan::new(random, size);
    let mut maker =
        Maker { random, plan, parts: SetParts::default(), chart_of: Vec::new(), initial: Vec::new() };
    maker.make_states();
    maker.make_transitions();
    maker.make_triggers();
    maker.make_variables();
    let guards = maker.choose_guards();
    let owners = maker.choose_owners();
    let sketches = maker.choose_deeds(&owners);
    maker.make_expressions(&guards, &sketches);
    maker.parts.bytes()
}

/// An accepted set of any size, the largest seldom, or one whose actions see each other through their guards, one whose
/// states act while they idle, or one with due times that wait.
pub fn any_valid_set(random: &mut Random) -> Vec<u8> {
    let size = match random.below(40) {
        0 => Size::Largest,
        1..=15 => Size::Middling,
        16..=27 => Size::Tiny,
        28..=31 => return guarded_set(random),
        32..=35 => return idling_set(random),
        _ => return waiting_set(random),
    };
    valid_set(random, size)
}

/// What an action is to be before its expressions are made.
struct Sketch {
    place: u8,
    owner: u16,
    /// The variable it assigns, or none for a raise.
    assigns: Option<usize>,
    guarded: bool,
}

struct Maker<'a> {
    random: &'a mut Random,
    plan: Plan,
    parts: SetParts,
    chart_of: Vec<u8>,
    initial: Vec<u16>,
}

impl Maker<'_> {
    /// Each chart has at least an initial state and one to go to; the charts' states are mixed.
    fn make_states(&mut self) {
        let charts = self.plan.charts;
        let mut chart_of: Vec<usize> = (0..2 * charts).map(|state| state % charts).collect();
        chart_of.extend((2 * charts..self.plan.states).map(|_| self.random.below(charts)));
        self.random.shuffle(&mut chart_of);
        self.chart_of = chart_of.iter().map(|chart| u8::try_from(*chart).expect("at most 8")).collect();
        for chart in 0..charts {
            let own = self.states_where(|maker, state| usize::from(maker.chart_of[state]) == chart);
            let initial = self.random.pick(&own);
            self.initial.push(initial);
        }
        self.parts.charts = self.initial.iter().map(|initial| chart(*initial)).collect();
        self.parts.states = self.chart_of.iter().map(|chart| state(*chart)).collect();
    }

    fn states_where(&self, kept: impl Fn(&Self, usize) -> bool) -> Vec<u16> {
        let states = 0..self.chart_of.len();
        states
            .filter(|state| kept(self, *state))
            .map(|state| u16::try_from(state).expect("at most 128"))
            .collect()
    }

    fn enterable(&self, chart: u8) -> Vec<u16> {
        self.states_where(|maker, state| {
            maker.chart_of[state] == chart
                && !maker.initial.iter().any(|initial| usize::from(*initial) == state)
        })
    }

    /// The initial states' transitions, and others from states with a free priority; some states
    /// get long rows. The file order is mixed, so that priorities are out of it.
    fn make_transitions(&mut self) {
        let mut transitions = Vec::new();
        for initial in self.initial.clone() {
            let target = self.target(initial);
            let priority = self.random.u8_between(HIGHEST_PRIORITY, LOWEST_PRIORITY);
            transitions.push(transition(priority, initial, target));
        }
        let sources = self
            .states_where(|maker, state| !maker.initial.iter().any(|initial| usize::from(*initial) == state));
        let favoured = self.random.pick(&sources);
        let mut free = vec![(HIGHEST_PRIORITY..=LOWEST_PRIORITY).collect::<Vec<u8>>(); self.chart_of.len()];
        while transitions.len() < self.plan.transitions {
            let source = if self.random.chance(1, 6) { favoured } else { self.random.pick(&sources) };
            let priorities = &mut free[usize::from(source)];
            if !priorities.is_empty() {
                let priority = priorities.swap_remove(self.random.below(priorities.len()));
                transitions.push(transition(priority, source, self.target(source)));
            } else if free.iter().map(Vec::len).sum::<usize>()
                == LOWEST_PRIORITY as usize * self.initial.len()
            {
                break;
            }
        }
        self.random.shuffle(&mut transitions);
        self.parts.transitions = transitions;
    }

    fn target(&mut self, source: u16) -> u16 {
        let chart = self.chart_of[usize::from(source)];
        let targets = self.enterable(chart);
        self.random.pick(&targets)
    }

    fn leaves_initial(&self, transition: &Record) -> bool {
        self.initial.contains(&read_u16(transition, 2))
    }

    fn make_triggers(&mut self) {
        for number in 0..self.parts.transitions.len() {
            let plain = self.parts.transitions[number];
            if self.leaves_initial(&plain) {
                continue;
            }
            let event = self.random.pick(&self.plan.events);
            let milliseconds = milliseconds(self.random);
            self.parts.transitions[number] = match self.random.below(12) {
                0..=4 => on_event(plain, event),
                5..=6 => after(plain, milliseconds),
                7..=8 => every(plain, milliseconds),
                _ => plain,
            };
        }
    }

    fn make_variables(&mut self) {
        let count = self.plan.variables;
        self.parts.variables = (0..count).map(|_| any_variable(self.random)).collect();
    }

    /// The transitions that get a guard: most of those without trigger, some of the others.
    fn choose_guards(&mut self) -> Vec<usize> {
        let mut guards = Vec::new();
        for number in 0..self.parts.transitions.len() {
            let record = self.parts.transitions[number];
            let often = if record[6] == NO_TRIGGER { 7 } else { 3 };
            if !self.leaves_initial(&record) && self.random.chance(often, 8) {
                guards.push(number);
            }
        }
        guards
    }

    /// Place and owner of each action; at most 8 an owner, of an initial state only waiting ones.
    fn choose_owners(&mut self) -> Vec<(u8, u16)> {
        let states = self
            .states_where(|maker, state| !maker.initial.iter().any(|initial| usize::from(*initial) == state));
        let mut owners: Vec<(u8, u16)> = Vec::new();
        let mut of_state = vec![0; self.chart_of.len()];
        let mut of_transition = vec![0; self.parts.transitions.len()];
        for _ in 0..8 * self.plan.actions {
            let place = self.random.u8_between(ENTRY, self.plan.last_place);
            let owner = match place {
                ON_TRANSITION => self.random.index(of_transition.len()),
                WAITING => self.random.index(of_state.len()),
                _ => self.random.pick(&states),
            };
            let counts = if place == ON_TRANSITION { &mut of_transition } else { &mut of_state };
            let count = &mut counts[usize::from(owner)];
            if *count < ACTIONS_PER_OWNER && owners.len() < self.plan.actions {
                *count += 1;
                owners.push((place, owner));
            }
        }
        owners
    }

    fn choose_deeds(&mut self, owners: &[(u8, u16)]) -> Vec<Sketch> {
        let variables = self.plan.variables;
        // With an exact number of nodes, too many assignments would not leave room for guards.
        let often = if self.plan.nodes.is_some() { 8 } else { 12 };
        let sketch = |(place, owner): &(u8, u16)| Sketch {
            place: *place,
            owner: *owner,
            assigns: (variables > 0 && self.random.chance(often, 16)).then(|| self.random.below(variables)),
            guarded: self.random.chance(self.plan.guarded_actions, 16),
        };
        owners.iter().map(sketch).collect()
    }

    /// The guards of the transitions given, then those of the actions, then the assigned numbers.
    fn make_expressions(&mut self, guards: &[usize], sketches: &[Sketch]) {
        let truths = guards.len() + sketches.iter().filter(|sketch| sketch.guarded).count();
        let assigned: Vec<usize> = sketches.iter().filter_map(|sketch| sketch.assigns).collect();
        let sizes = self.sizes(truths, assigned.len());
        let mut nodes = Vec::new();
        let mut roots = Vec::new();
        for size in &sizes[..truths] {
            roots.push(self.guard(&mut nodes, *size));
        }
        for (variable, size) in assigned.iter().zip(&sizes[truths..]) {
            roots.push(self.assigned_number(&mut nodes, *size, *variable));
        }
        let (nodes, number) = if self.random.chance(1, 2) {
            renumber(self.random, &nodes)
        } else {
            let same = (0u16..).take(nodes.len()).collect();
            (nodes, same)
        };
        self.parts.nodes = nodes;
        let roots: Vec<u16> = roots.into_iter().map(|root| number[usize::from(root)]).collect();
        for (guard, root) in guards.iter().zip(&roots) {
            self.parts.transitions[*guard] = guarded(self.parts.transitions[*guard], *root);
        }
        self.make_actions(sketches, &roots[guards.len()..truths], &roots[truths..]);
    }

    fn make_actions(&mut self, sketches: &[Sketch], guards: &[u16], numbers: &[u16]) {
        let (mut guards, mut numbers) = (guards.iter(), numbers.iter());
        let times: Vec<u32> = self.chart_of.iter().map(|_| milliseconds(self.random)).collect();
        for sketch in sketches {
            let deed = match sketch.assigns {
                Some(variable) => Deed::Assign {
                    variable: u8::try_from(variable).expect("at most 64"),
                    node: *numbers.next().expect("a number for each assignment"),
                },
                None => Deed::Raise { event: self.random.pick(&self.plan.events) },
            };
            let mut record = action(sketch.place, sketch.owner, deed);
            if sketch.place == WAITING {
                record = at_each(record, times[usize::from(sketch.owner)]);
            }
            if sketch.guarded {
                record = done_if(record, *guards.next().expect("a guard for each guarded action"));
            }
            self.parts.actions.push(record);
        }
    }

    /// The nodes of each expression: guards first, then assigned numbers.
    fn sizes(&mut self, guards: usize, assigned: usize) -> Vec<usize> {
        let Some(total) = self.plan.nodes else {
            let guard = [3, 3, 4, 5, 7, 9, 12];
            let number = [1, 1, 3, 3, 5, 6, 9];
            let mut sizes: Vec<usize> = (0..guards).map(|_| self.random.pick(&guard)).collect();
            sizes.extend((0..assigned).map(|_| self.random.pick(&number)));
            return sizes;
        };
        let mut sizes = vec![3; guards];
        sizes.extend(vec![1; assigned]);
        let mut spare = total - sizes.iter().sum::<usize>();
        for _ in 0..self.random.pick(&[0, 20, 600]) {
            let one = self.random.below(sizes.len());
            let more = 1 + self.random.below(8);
            let possible = one < guards || number_size_possible(sizes[one] + more);
            if more <= spare && possible {
                sizes[one] += more;
                spare -= more;
            }
        }
        // The rest makes one guard long.
        sizes[0] += spare;
        sizes
    }

    fn guard(&mut self, nodes: &mut Vec<Node>, size: usize) -> u16 {
        let daring = self.random.chance(self.plan.daring_guards, 16);
        self.grower(nodes, daring).truth(size)
    }

    fn assigned_number(&mut self, nodes: &mut Vec<Node>, size: usize, variable: usize) -> u16 {
        let range = self.parts.variables[variable];
        let daring = self.random.chance(self.plan.daring_deeds, 16);
        let extreme = daring && self.random.chance(1, 3);
        let mut grower = self.grower(nodes, extreme);
        if daring {
            grower.number(size)
        } else {
            number_within(&mut grower, size, &range)
        }
    }

    fn grower<'b>(&'b mut self, nodes: &'b mut Vec<Node>, daring: bool) -> Grower<'b> {
        let chain = self.random.chance(1, 4);
        Grower { style: Style { variables: self.plan.variables, daring, chain }, random: self.random, nodes }
    }
}

/// Mostly few ticks, at times the far end of the range, or anywhere in it.
fn milliseconds(random: &mut Random) -> u32 {
    let most = u32::from(MOST_TICKS);
    let whole_ticks = match random.below(10) {
        0 => random.u32_between(most - 2, most),
        1 => random.u32_between(0, most),
        _ => random.u32_between(0, 8),
    };
    time_from(random, whole_ticks)
}

fn any_variable(random: &mut Random) -> Variable {
    let (lowest, highest) = match random.below(8) {
        0 => (i16::MIN, i16::MAX),
        1 => (-3, 3),
        2 => (-50, -10),
        3 => (5, 5),
        4 => (0, 1),
        5 => {
            let lowest = random.i16_between(i16::MIN, i16::MAX);
            (lowest, random.i16_between(lowest, i16::MAX))
        }
        _ => (-100, 100),
    };
    Variable { lowest, highest, start: random.i16_between(lowest, highest) }
}
