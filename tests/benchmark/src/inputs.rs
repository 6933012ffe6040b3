//! What the work is done on: chart sets with the events of a run from their start, in which no cycle is refused or faults.

use crate::shapes;
use simulator::assemble::{chart, guarded, state, transition};
use simulator::chart_sets::{zero_watch, SetParts};
use simulator::expressions::Node;
use simulator::generate::calls::{events_of_set, mask};
use simulator::records::NODE;
use simulator::variables::Variable;
use simulator::{translation, ChartSet, Random};
use tuned::automata::Table;
use tuned::machine::Machine;

pub struct Input {
    pub name: &'static str,
    pub set: Vec<u8>,
    /// The set's twin.
    pub table: Vec<u8>,
    /// The events of each cycle, and of as many turns.
    pub masks: Vec<u32>,
    pub turns: Vec<u32>,
    /// The path that the twin takes in these turns.
    pub path: Vec<u16>,
    /// How many files are checked, and how many calls made that check theirs.
    pub calls: usize,
}

impl Input {
    /// Kept to the end of the program, so that work can borrow it.
    fn new(name: &'static str, set: Vec<u8>, masks: Vec<u32>, calls: usize) -> &'static Input {
        let read = ChartSet::read(&set).expect("a valid set");
        let table = translation::twin(&read);
        let idle = vec![0; read.charts()];
        let each = masks.iter().flat_map(|events| std::iter::once(events).chain(&idle));
        let turns: Vec<u32> = each.copied().take(masks.len()).collect();
        let path = path(&Table::read(&table).expect("a twin is accepted"), &turns);
        Box::leak(Box::new(Input { name, set, table, masks, turns, path, calls }))
    }
}

fn path(table: &Table, turns: &[u32]) -> Vec<u16> {
    let mut run = table.start();
    let mut step = |events: &u32| table.turn(&mut run, *events).expect("no turn faults").code();
    turns.iter().map(|events| u16::try_from(step(events)).expect("16 bits")).collect()
}

/// The three sets, each with one part in so many of the whole work.
pub fn all(part: usize) -> [&'static Input; 3] {
    let mut random = Random::new(1);
    let masks = (0..200_000 / part).map(|_| random.pick(&[0, 1, 2, 3])).collect();
    [
        Input::new("zero-watch", zero_watch(), masks, 10_000 / part),
        stored("middling", MIDDLING, 100_000 / part, 1_500 / part),
        stored("largest", LARGEST, 60_000 / part, 300 / part),
    ]
}

/// Sets that the simulator made at random, with the seeds of their events: runs that take many transitions and never fault.
/// They are stored, so that generators may change and figures be compared all the same.
const MIDDLING: (&[u8], u64) = (include_bytes!("../sets/middling.bin"), 0x163e_8153_ee2e_ace7);
const LARGEST: (&[u8], u64) = (include_bytes!("../sets/largest.bin"), 0x424b_bf3e_c6ba_1b90);

fn stored(name: &'static str, (set, seed): (&[u8], u64), cycles: usize, calls: usize) -> &'static Input {
    let known = events_of_set(&ChartSet::read(set).expect("a valid set"));
    let mut random = Random::new(seed);
    let masks = (0..cycles).map(|_| mask(&mut random, known)).collect();
    Input::new(name, set.to_vec(), masks, calls)
}

/// One chart that tries in each cycle a guard, its last node.
fn trying(name: &'static str, nodes: Vec<Node>, part: usize) -> &'static Input {
    let guard = u16::try_from(nodes.len() - 1).expect("at most 1,024");
    let set = SetParts {
        charts: vec![chart(0)],
        states: vec![state(0), state(0)],
        transitions: vec![transition(1, 0, 1), guarded(transition(1, 1, 1), guard)],
        variables: vec![Variable { lowest: -100, highest: 100, start: 7 }; 64],
        nodes,
        ..SetParts::default()
    };
    Input::new(name, set.bytes(), vec![0; 5_000 / part], 300 / part)
}

/// A guard of 1,024 nodes, all worked out, which does not hold.
pub fn guard(part: usize) -> &'static Input {
    trying("guard", shapes::guard_nodes(), part)
}

/// Guards that nest in one place.
pub fn nested_guards(part: usize) -> [&'static Input; 8] {
    shapes::all().map(|(name, nodes)| trying(name, nodes, part))
}

/// The node records of a set.
pub fn nodes_of(set: &[u8]) -> Vec<u8> {
    set.chunks(16).filter(|record| record[0] == NODE).flatten().copied().collect()
}
