//! The twin of a chart set, written into a lent buffer.

use crate::charts::{idle_edges, Set, Transition, AFTER, ALWAYS, EVENT, EVERY};
use crate::files::{records, Record, NONE};
use crate::runs::{Deed, CLOCKS};
use crate::Refusal;

struct Writer<'a> {
    places: std::slice::IterMut<'a, [u8; 16]>,
}

impl Writer<'_> {
    #[inline(always)]
    fn put(&mut self, record: Record) {
        if let Some(place) = self.places.next() {
            *place = record.0.to_le_bytes();
        }
    }
}

/// Of each transition its clock, of each state the clocks of those that leave it and then its own, if it has waiting actions.
struct Clocks {
    of: [u16; 256],
    count: usize,
    by_state: [u16; CLOCKS],
    first: [u16; 130],
}

impl Clocks {
    fn of(set: &Set) -> Clocks {
        let mut clocks = Clocks { of: [0; 256], count: 0, by_state: [0; CLOCKS], first: [0; 130] };
        for transition in set.transitions.iter().filter(|transition| transition.trigger >= AFTER) {
            clocks.first[usize::from(transition.source) + 2] += 1;
        }
        for (state, waiting) in set.waiting[..set.states].iter().enumerate() {
            clocks.first[state + 2] += clocks.first[state + 1] + u16::from(*waiting != 0);
        }
        for (number, transition) in set.transitions.iter().enumerate() {
            clocks.of[number & 255] = clocks.count as u16;
            if transition.trigger >= AFTER {
                clocks.add(usize::from(transition.source));
            }
        }
        for (state, _) in waiting_states(set) {
            clocks.add(state);
        }
        clocks
    }

    /// The next clock, of a state.
    #[inline(always)]
    fn add(&mut self, state: usize) {
        let place = &mut self.first[state + 1];
        self.by_state[usize::from(*place)] = self.count as u16;
        *place += 1;
        self.count += 1;
    }

    #[inline(always)]
    fn leaving(&self, state: u16) -> &[u16] {
        let state = usize::from(state);
        &self.by_state[usize::from(self.first[state])..usize::from(self.first[state + 1])]
    }
}

/// The states with waiting actions, and the ticks of these.
#[inline(always)]
fn waiting_states(set: &Set) -> impl Iterator<Item = (usize, u32)> + '_ {
    set.waiting[..set.waiting_end].iter().copied().enumerate().filter(|(_, ticks)| *ticks != 0)
}

/// How many records the twin has.
fn length(set: &Set, clocks: &Clocks) -> usize {
    let row = |state: usize| set.row(state as u16).len();
    // A row of r gives 1 + 2 + .. + r literals to its edges, and r to the idle edge.
    let literals: usize = (0..set.states).map(|state| row(state) * (row(state) + 3) / 2).sum();
    let effects = |t: &Transition| {
        set.deeds_of(t).iter().map(|deeds| deeds.len()).sum::<usize>() + clocks.leaving(t.target).len()
    };
    let effects: usize = set.transitions.iter().map(effects).sum();
    // A further idle edge with its must-nots, a literal more for each of the two, and the updates.
    let waits = |(state, _)| 1 + row(state) + 2 + set.waiting_deeds(state).len();
    let waits: usize = waiting_states(set).map(waits).sum();
    set.charts
        + 2 * set.states
        + set.transitions.len()
        + literals
        + clocks.count
        + set.variables.count
        + set.nodes.len()
        + effects
        + waits
}

#[inline(always)]
fn literal(clocks: &Clocks, sign: u8, edge: u16, transition: &Transition) -> Record {
    let record = Record::of(36).with_byte(1, sign).with_u16(2, edge).with_u16(8, transition.guard);
    match transition.trigger {
        ALWAYS => record,
        EVENT => record.with_byte(4, 1).with_byte(5, transition.event),
        _ => record.with_byte(4, 2).with_u16(6, clocks.of[usize::from(transition.number) & 255]),
    }
}

/// Refusals 1 to 9 are those of reading the set, here 10. The bytes of the set are those that it was read from.
pub fn write(set: &Set, bytes: &[u8], out: &mut [u8]) -> Result<usize, Refusal> {
    let clocks = Clocks::of(set);
    let length = 16 * length(set, &clocks);
    let Some(out) = out.get_mut(..length) else {
        return Err(10);
    };
    let mut writer = Writer { places: out.as_chunks_mut::<16>().0.iter_mut() };
    put_places(set, &mut writer);
    put_literals(set, &clocks, &mut writer);
    put_values(set, bytes, &mut writer);
    put_effects(set, &clocks, &mut writer);
    Ok(length)
}

/// Automata, locations, edges.
fn put_places(set: &Set, writer: &mut Writer) {
    for initial in &set.initial[..set.charts] {
        writer.put(Record::of(33).with_u16(2, *initial));
    }
    for home in &set.homes[..set.states] {
        writer.put(Record::of(34).with_byte(1, *home));
    }
    let home = |state: u16| set.homes[usize::from(state) & 127];
    for t in &set.transitions {
        writer.put(Record::of(35).with_byte(1, home(t.source)).with_u16(2, t.source).with_u16(4, t.target));
    }
    for state in 0..set.states as u16 {
        let idle =
            Record::of(35).with_byte(1, home(state)).with_u16(2, state).with_u16(4, state).with_byte(6, 1);
        for _ in 0..idle_edges(set.waiting[usize::from(state)]) {
            writer.put(idle);
        }
    }
}

/// Literals, and the clocks that they read.
fn put_literals(set: &Set, clocks: &Clocks, writer: &mut Writer) {
    for t in &set.transitions {
        for other in set.row(t.source).iter().take_while(|other| other.number != t.number) {
            writer.put(literal(clocks, 2, t.number, other));
        }
        writer.put(literal(clocks, 1, t.number, t));
    }
    let mut edge = set.transitions.len() as u16;
    for (state, waiting) in (0u16..).zip(&set.waiting[..set.states]) {
        // Due, then not due.
        for sign in (1..).take(idle_edges(*waiting)) {
            for other in set.row(state) {
                writer.put(literal(clocks, 2, edge, other));
            }
            if let (true, Some(own)) = (*waiting != 0, clocks.leaving(state).last()) {
                let record = Record::of(36).with_byte(1, sign).with_u16(2, edge).with_byte(4, 2);
                writer.put(record.with_u16(6, *own).with_u16(8, NONE));
            }
            edge += 1;
        }
    }
    for t in set.transitions.iter().filter(|t| t.trigger >= AFTER) {
        writer.put(Record::of(37).with_byte(1, t.trigger).with_u16(2, t.ticks as u16));
    }
    for (_, ticks) in waiting_states(set) {
        writer.put(Record::of(37).with_byte(1, EVERY).with_u16(2, ticks as u16));
    }
}

/// Variables and nodes, copied.
fn put_values(set: &Set, bytes: &[u8], writer: &mut Writer) {
    let variables_at = 16 * (set.charts + set.states + set.transitions.len());
    let nodes_at = variables_at + 16 * set.variables.count;
    let actions_at = nodes_at + 16 * set.nodes.len();
    for record in records(&bytes[variables_at..nodes_at]) {
        writer.put(record.with_kind(38));
    }
    for record in records(&bytes[nodes_at..actions_at]) {
        writer.put(record.with_kind(39));
    }
}

#[inline(always)]
fn update(edge: u16, deed: &Deed) -> Record {
    let guard = deed.guard.wrapping_add(1);
    let record = Record::of(40).with_u16(2, edge).with_byte(4, deed.thing).with_u16(8, guard);
    if deed.assigns {
        record.with_byte(1, 1).with_u16(6, deed.node)
    } else {
        record.with_byte(1, 2)
    }
}

/// Updates and resets.
fn put_effects(set: &Set, clocks: &Clocks, writer: &mut Writer) {
    for t in &set.transitions {
        for deed in set.deeds_of(t).into_iter().flatten() {
            writer.put(update(t.number, deed));
        }
    }
    // Each state before has its idle edge, and each waiting one before a further one.
    for (before, (state, _)) in waiting_states(set).enumerate() {
        let due = (set.transitions.len() + state + before) as u16;
        for deed in set.waiting_deeds(state) {
            writer.put(update(due, deed));
        }
    }
    for t in &set.transitions {
        for clock in clocks.leaving(t.target) {
            writer.put(Record::of(41).with_u16(2, t.number).with_u16(4, *clock));
        }
    }
}
