//! Chart sets: refusals 1 to 9 and 25, the decoded set, a chart's turn.

use crate::files::{records, sections, span, Found, Owned, Record, NONE};
use crate::machine::{Answer, Machine};
use crate::nodes::Nodes;
use crate::runs::{do_deeds, homes_possible, ChartsRun, Deed, Shared, Variables, PARTS};
use crate::Refusal;

const MOST: [usize; 6] = [8, 128, 256, 64, 1_024, 512];

pub const ALWAYS: u8 = 0;
pub const EVENT: u8 = 1;
pub const AFTER: u8 = 2;
pub const EVERY: u8 = 3;

/// The place of an action that is done while its state idles.
const WAITING: u8 = 4;

#[derive(Clone, Copy, Default)]
pub struct Transition {
    /// Of a timing trigger.
    pub ticks: u32,
    /// Of an event trigger.
    pub mask: u32,
    pub source: u16,
    pub target: u16,
    pub guard: u16,
    pub number: u16,
    pub trigger: u8,
    pub event: u8,
    pub priority: u8,
}

/// A set, decoded. Kept between files, so that reading one allocates nothing.
pub struct Set {
    pub charts: usize,
    pub states: usize,
    pub initial: [u16; PARTS],
    /// The chart of each state; 255 where there is none.
    pub homes: [u8; 128],
    /// In file order.
    pub transitions: Vec<Transition>,
    /// By state and priority; those of state s are `row(s)`.
    rows: Vec<Transition>,
    first_of_row: [u16; 129],
    pub variables: Variables,
    pub nodes: Nodes,
    /// By key: entry of each state, exit of each state, each transition's, then waiting of each state.
    deeds: Owned<Deed, 642>,
    /// Of each state the ticks of its waiting actions; 0 where it has none.
    pub waiting: [u32; 128],
    /// No state from here on has any.
    pub waiting_end: usize,
}

/// What the times of waiting actions are refused by, if nothing comes before: 9 and 25.
struct Waiting {
    zero: bool,
    differ: bool,
}

impl Default for Set {
    fn default() -> Set {
        Set {
            charts: 0,
            states: 0,
            initial: [0; PARTS],
            homes: [255; 128],
            transitions: Vec::new(),
            rows: Vec::new(),
            first_of_row: [0; 129],
            variables: Variables::read(&[]).0,
            nodes: Nodes::default(),
            deeds: Owned::default(),
            waiting: [0; 128],
            waiting_end: 0,
        }
    }
}

/// Whether so many milliseconds are no time of a set.
#[inline(always)]
fn no_time(milliseconds: u32) -> bool {
    milliseconds.wrapping_sub(1) >= 3_600_000
}

/// 49 more takes an exact half down, 50 more takes it up: to the even tick.
#[inline(always)]
fn ticks(milliseconds: u32) -> u32 {
    let odd = milliseconds / 100 & 1;
    milliseconds.wrapping_add(49 + odd) / 100
}

/// At the positive multiples of ticks, which are not 0.
#[inline(always)]
fn due(age: u32, ticks: u32) -> bool {
    age >= ticks && age.is_multiple_of(ticks)
}

/// Of a state with waiting actions of so many ticks: due and not due; of one without, its one.
#[inline(always)]
pub fn idle_edges(waiting: u32) -> usize {
    1 + usize::from(waiting != 0)
}

#[inline(always)]
fn transition_named(trigger: u8) -> u128 {
    span(0, 6)
        | span(12, 13)
        | match trigger {
            ALWAYS => 0,
            EVENT => span(7, 7),
            AFTER | EVERY => span(8, 11),
            _ => span(7, 11),
        }
}

#[inline(always)]
fn action_named(place: u8, deed: u8) -> u128 {
    span(0, 5)
        | span(8, 9)
        | if deed == 2 { 0 } else { span(6, 7) }
        | if matches!(place, 1..=3) { 0 } else { span(12, 15) }
}

impl Set {
    fn read_charts(&mut self, section: &[u8]) -> Found {
        let mut found = Found::default();
        self.initial = [0; PARTS];
        for (chart, record) in records(section).enumerate() {
            found.stray |= record.strays(span(0, 0) | span(2, 3));
            self.initial[chart & 7] = record.u16(2);
            found.dangling |= usize::from(record.u16(2)) >= self.states;
        }
        found
    }

    fn read_states(&mut self, section: &[u8]) -> Found {
        let mut found = Found::default();
        self.homes = [255; 128];
        for (state, record) in records(section).enumerate() {
            found.stray |= record.strays(span(0, 1));
            self.homes[state & 127] = record.byte(1);
            found.dangling |= usize::from(record.byte(1)) >= self.charts;
        }
        found
    }

    fn read_transitions(&mut self, section: &[u8], nodes: usize) -> Found {
        let mut found = Found::default();
        self.transitions.clear();
        self.transitions.reserve(section.len() / 16);
        for (number, record) in records(section).enumerate() {
            let (priority, trigger, event, milliseconds) =
                (record.byte(1), record.byte(6), record.byte(7), record.u32(8));
            let (source, target, guard) = (record.u16(2), record.u16(4), record.u16(12));
            found.stray |= record.strays(transition_named(trigger));
            found.broken |= priority.wrapping_sub(1) >= 16
                || match trigger {
                    ALWAYS => false,
                    EVENT => event >= 32,
                    AFTER | EVERY => no_time(milliseconds),
                    _ => true,
                };
            found.dangling |= usize::from(source) >= self.states
                || usize::from(target) >= self.states
                || guard != NONE && usize::from(guard) >= nodes;
            let (ticks, mask) = (ticks(milliseconds), 1u32.wrapping_shl(u32::from(event)));
            let number = number as u16;
            let read = Transition { ticks, mask, source, target, guard, number, trigger, event, priority };
            self.transitions.push(read);
        }
        found
    }

    fn read_actions(&mut self, section: &[u8]) -> (Found, Waiting) {
        let mut found = Found::default();
        let mut waiting = Waiting { zero: false, differ: false };
        self.waiting[..self.states].fill(0);
        self.waiting_end = 0;
        for record in records(section) {
            let (place, deed, x) = (record.byte(1), record.byte(4), record.byte(5));
            found.stray |= record.strays(action_named(place, deed));
            found.broken |= place.wrapping_sub(1) >= 4 || deed.wrapping_sub(1) >= 2 || deed == 2 && x >= 32;
            let owners = if place == 3 { self.transitions.len() } else { self.states };
            let is_node = |node: u16| usize::from(node) < self.nodes.len();
            found.dangling |= usize::from(record.u16(2)) >= owners
                || deed == 1 && !(usize::from(x) < self.variables.count && is_node(record.u16(6)))
                || record.guard() != NONE && !is_node(record.guard());
            if place == WAITING {
                let milliseconds = record.u32(12);
                found.broken |= no_time(milliseconds);
                waiting.zero |= ticks(milliseconds) == 0;
                let state = usize::from(record.u16(2)) & 127;
                let kept = &mut self.waiting[state];
                waiting.differ |= *kept != 0 && *kept != milliseconds;
                *kept = milliseconds;
                self.waiting_end = self.waiting_end.max(state + 1);
            }
        }
        // The milliseconds have been compared; all that is asked of them from now on is their ticks.
        self.waiting[..self.waiting_end].iter_mut().for_each(|time| *time = ticks(*time));
        (found, waiting)
    }

    /// The rows by priority; false where two leave a state with one priority.
    fn order_rows(&mut self) -> bool {
        let first = &mut self.first_of_row;
        first[..=self.states].fill(0);
        for transition in &self.transitions {
            first[usize::from(transition.source) + 1] += 1;
        }
        for state in 0..self.states {
            first[state + 1] += first[state];
        }
        self.rows.clear();
        self.rows.extend_from_slice(&self.transitions);
        let mut fill = [0u8; 128];
        let mut differ = true;
        for transition in &self.transitions {
            let state = usize::from(transition.source);
            let start = usize::from(first[state]);
            let mut place = start + usize::from(fill[state]);
            fill[state] = fill[state].wrapping_add(1);
            while place > start && self.rows[place - 1].priority > transition.priority {
                self.rows[place] = self.rows[place - 1];
                place -= 1;
            }
            differ &= place == start || self.rows[place - 1].priority != transition.priority;
            self.rows[place] = *transition;
        }
        differ
    }

    /// The deeds by key; false where an owner has a ninth.
    fn order_deeds(&mut self, actions: &[u8]) -> bool {
        let (states, waiting) = (self.states, 2 * self.states + self.transitions.len());
        let by_place = [0, 0, states, 2 * states, waiting, 0, 0, 0];
        let key = |record: &Record| usize::from(record.u16(2)) + by_place[usize::from(record.byte(1)) & 7];
        self.deeds.fill(waiting + states, records(actions), key, |_, record| {
            Deed::of(record.byte(4), record.byte(5), record.u16(6), record.guard())
        });
        let count = |key: usize| self.deeds.of(key).len();
        (0..states).all(|state| count(state) + count(states + state) + count(waiting + state) <= 8)
            && (2 * states..waiting).all(|key| count(key) <= 8)
    }

    #[inline(always)]
    pub fn row(&self, state: u16) -> &[Transition] {
        let state = usize::from(state);
        &self.rows[usize::from(self.first_of_row[state])..usize::from(self.first_of_row[state + 1])]
    }

    /// Exit of the source, the transition's, entry of the target.
    #[inline(always)]
    pub fn deeds_of(&self, transition: &Transition) -> [&[Deed]; 3] {
        [
            self.deeds.of(self.states + usize::from(transition.source)),
            self.deeds.of(2 * self.states + usize::from(transition.number)),
            self.deeds.of(usize::from(transition.target)),
        ]
    }

    #[inline(always)]
    pub fn waiting_deeds(&self, state: usize) -> &[Deed] {
        self.deeds.of(2 * self.states + self.transitions.len() + state)
    }

    fn structured(&self) -> bool {
        let mut entered = 0u128;
        for transition in &self.transitions {
            let (source, target) = (usize::from(transition.source), usize::from(transition.target));
            if self.homes[source & 127] != self.homes[target & 127] {
                return false;
            }
            entered |= 1 << (target & 127);
        }
        (0..self.charts).all(|chart| {
            let initial = self.initial[chart];
            let state = usize::from(initial);
            usize::from(self.homes[state & 127]) == chart
                && matches!(self.row(initial), [only] if only.trigger == ALWAYS && only.guard == NONE)
                && entered >> state & 1 == 0
                && self.deeds.of(state).is_empty()
                && self.deeds.of(self.states + state).is_empty()
        })
    }

    /// Guards are truths, assigned nodes numbers, and each node is used once.
    fn nodes_used_once(&mut self, actions: &[u8]) -> bool {
        for transition in self.transitions.iter().filter(|transition| transition.guard != NONE) {
            if !self.nodes.is_truth(transition.guard) {
                return false;
            }
            self.nodes.add_use(transition.guard);
        }
        for record in records(actions) {
            let (guard, node) = (record.guard(), record.u16(6));
            if guard != NONE {
                if !self.nodes.is_truth(guard) {
                    return false;
                }
                self.nodes.add_use(guard);
            }
            if record.byte(4) == 1 {
                if !self.nodes.is_number(node) {
                    return false;
                }
                self.nodes.add_use(node);
            }
        }
        self.nodes.uses.iter().all(|uses| *uses == 1)
    }

    #[inline(always)]
    fn holds(&self, transition: &Transition, age: u32, run: &Shared) -> Result<bool, Refusal> {
        let triggered = match transition.trigger {
            ALWAYS => true,
            EVENT => run.events & transition.mask != 0,
            AFTER => age >= transition.ticks,
            _ => due(age, transition.ticks),
        };
        Ok(triggered && (transition.guard == NONE || self.nodes.truth(&run.variables, transition.guard)?))
    }
}

impl Machine for Set {
    type Run = ChartsRun;

    /// Refused with the lowest number that applies, of 1 to 9 and 25.
    fn read_into(&mut self, bytes: &[u8]) -> Result<(), Refusal> {
        let [charts, states, transitions, variables, nodes, actions] = sections(bytes, 1, &MOST)?;
        self.charts = charts.len() / 16;
        self.states = states.len() / 16;
        let (variables, stray, broken) = Variables::read(variables);
        self.variables = variables;
        let mut found = Found { stray, broken, dangling: false };
        found |= self.read_charts(charts);
        found |= self.read_states(states);
        found |= self.read_transitions(transitions, nodes.len() / 16);
        found |= self.nodes.read_into(nodes, self.variables.count);
        let (of_actions, waiting) = self.read_actions(actions);
        found |= of_actions;
        if found.stray {
            Err(4)
        } else if found.broken {
            Err(5)
        } else if found.dangling {
            Err(6)
        } else if !self.order_rows() | !self.order_deeds(actions) || !self.structured() {
            Err(7)
        } else if !self.nodes.ordered || !self.nodes_used_once(actions) {
            Err(8)
        } else if waiting.zero || self.transitions.iter().any(|t| t.trigger >= AFTER && t.ticks == 0) {
            Err(9)
        } else if waiting.differ {
            Err(25)
        } else {
            Ok(())
        }
    }

    fn start(&self) -> ChartsRun {
        ChartsRun { states: self.initial, ages: [0; PARTS], shared: Shared::fresh(self.variables.start) }
    }

    #[inline(always)]
    fn parts(&self) -> usize {
        self.charts
    }

    #[inline(always)]
    fn places_possible(&self, run: &ChartsRun) -> bool {
        let mut young = true;
        for part in 0..PARTS {
            young &= run.ages[part] <= if part < self.charts { run.shared.cycles } else { 0 };
        }
        young
            & homes_possible(&self.homes, self.charts, &run.states)
            & self.variables.possible(&run.shared.variables)
    }

    #[inline(always)]
    fn part_turn(&self, run: &mut ChartsRun) -> Result<Answer, Refusal> {
        let chart = (run.shared.position as usize - 1) & (PARTS - 1);
        for transition in self.row(run.states[chart]) {
            if self.holds(transition, run.ages[chart], &run.shared)? {
                for deeds in self.deeds_of(transition) {
                    do_deeds(&self.nodes, &self.variables, deeds, &mut run.shared)?;
                }
                run.states[chart] = transition.target;
                run.ages[chart] = 0;
                run.shared.position += 1;
                return Ok(Answer::Taken(transition.number));
            }
        }
        let state = usize::from(run.states[chart]);
        let ticks = self.waiting[state & 127];
        if ticks != 0 && due(run.ages[chart], ticks) {
            do_deeds(&self.nodes, &self.variables, self.waiting_deeds(state), &mut run.shared)?;
        }
        run.shared.position += 1;
        Ok(Answer::Idle)
    }

    #[inline(always)]
    fn grow(&self, run: &mut ChartsRun) {
        for part in 0..PARTS {
            run.ages[part] += u32::from(part < self.charts);
        }
    }
}
