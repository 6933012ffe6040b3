//! The lines of the tables: one kind of work on one input, for the proved and for the tuned side.

use crate::guards;
use crate::inputs::{self, Input};
use crate::proved::Proved;
use crate::work::{side, Side};
use comparison::monuvaleck::{self, Stepped, LONGEST_TWIN};
use std::fmt::Debug;
use std::hash::Hash;
use std::hint::black_box;
use tuned::automata::Table;
use tuned::charts::Set;
use tuned::machine::{Answer, Machine};
use tuned::runs::Run;
use tuned::{path_back, translation, Refusal};

pub struct Line {
    pub input: &'static str,
    pub work: &'static str,
    /// How many units can be done at most.
    pub units: usize,
    pub proved: Side,
    /// Reads the file as often as the proved side does, into kept storage.
    pub tuned: Side,
    /// Keeps the decoded file between calls.
    pub kept: Option<Side>,
}

/// A run that can be compared.
trait SameRun: Run + Hash + PartialEq + Debug {}

impl<T: Run + Hash + PartialEq + Debug> SameRun for T {}

/// An answer as the C interface gives it.
#[inline(always)]
pub fn code<T>(result: Result<T, Refusal>, answer: impl FnOnce(T) -> i32) -> i32 {
    match result {
        Ok(value) => answer(value),
        Err(number) => -(number as i32),
    }
}

/// Answers so far, as one number; no call may be refused or fault.
#[derive(Clone, Copy, Default, Hash)]
pub struct Answers(u64);

impl Answers {
    #[inline(always)]
    pub fn add(&mut self, answer: i32) {
        assert!(answer >= 0, "number {}", -answer);
        self.0 = self.0.rotate_left(7) ^ answer as u64;
    }
}

fn checked<M: Proved + 'static>(input: &Input, work: &'static str, file: &'static [u8]) -> Line {
    let mut machine = M::default();
    Line {
        input: input.name,
        work,
        units: input.calls,
        proved: side(Answers::default(), move |answers, units| {
            (0..units).for_each(|_| answers.add(M::check(black_box(file))));
        }),
        tuned: side(Answers::default(), move |answers, units| {
            (0..units).for_each(|_| answers.add(code(machine.read_into(black_box(file)), |()| 0)));
        }),
        kept: None,
    }
}

/// A machine and its fresh run, which the proved side makes out of another.
fn fresh<M: Proved<Run: SameRun>>(file: &[u8]) -> (M, M::Run) {
    let machine = M::read(file).expect("an accepted file");
    let mut run = machine.start();
    machine.cycle(&mut run, 0).expect("no cycle faults");
    assert_eq!(M::lent(&mut run).start(file), 0);
    assert_eq!(run, machine.start());
    (machine, run)
}

/// Calls that check their file, each with its events.
fn called<M: Proved<Run: SameRun> + 'static>(
    (input, work): (&Input, &'static str),
    file: &'static [u8],
    events: &'static [u32],
    proved: impl Fn(&mut M::Lent, &[u8], u32) -> i32 + 'static,
    tuned: impl Fn(&M, &mut M::Run, u32) -> i32 + Copy + 'static,
) -> Line {
    let (kept, run) = fresh::<M>(file);
    let mut machine = M::default();
    let start = (Answers::default(), run);
    Line {
        input: input.name,
        work,
        units: input.calls,
        proved: side(start, move |(answers, run), units| {
            for events in &events[..units] {
                answers.add(proved(M::lent(run), black_box(file), *events));
            }
        }),
        tuned: side(start, move |(answers, run), units| {
            for events in &events[..units] {
                let read = machine.read_into(black_box(file));
                answers.add(code(read, |()| tuned(&machine, run, *events)));
            }
        }),
        kept: Some(side(start, move |(answers, run), units| {
            for events in &events[..units] {
                answers.add(tuned(black_box(&kept), run, *events));
            }
        })),
    }
}

/// Cycles, the file checked once.
fn played<M: Proved<Run: SameRun> + 'static>(
    input: &'static Input,
    work: &'static str,
    file: &'static [u8],
) -> Line {
    let (mut machine, run) = fresh::<M>(file);
    Line {
        input: input.name,
        work,
        units: input.masks.len(),
        proved: side((0, run), move |(answer, run), units| {
            *answer = M::lent(run).play(black_box(file), &input.masks[..units]);
            assert_eq!(*answer as usize, units, "a cycle faulted");
        }),
        tuned: side((0, run), move |(answer, run), units| {
            let read = machine.read_into(black_box(file));
            let played = read.and_then(|()| machine.play(run, &input.masks[..units]));
            *answer = code(played, |played| played as i32);
        }),
        kept: None,
    }
}

fn translated(input: &'static Input, work: &'static str, room: usize) -> Line {
    let (set, table) = (&input.set, &input.table);
    let (mut machine, (kept, _)) = (Set::default(), fresh::<Set>(set));
    let start = (Answers::default(), vec![0; room]);
    let mut twin = start.1.clone();
    assert_eq!(translation::write(&kept, set, &mut twin), Ok(table.len()));
    assert!(twin[..table.len()] == *table, "a twin differs");
    Line {
        input: input.name,
        work,
        units: input.calls,
        proved: side(start.clone(), move |(answers, out), units| {
            (0..units).for_each(|_| answers.add(monuvaleck::charts_translate(black_box(set), out)));
        }),
        tuned: side(start.clone(), move |(answers, out), units| {
            for _ in 0..units {
                let read = machine.read_into(black_box(set));
                let written = read.and_then(|()| translation::write(&machine, set, out));
                answers.add(code(written, |length| length as i32));
            }
        }),
        kept: Some(side(start, move |(answers, out), units| {
            for _ in 0..units {
                let written = translation::write(black_box(&kept), set, out);
                answers.add(code(written, |length| length as i32));
            }
        })),
    }
}

fn led_back(input: &'static Input) -> Line {
    let (set, path) = (&input.set, &input.path);
    let (mut machine, (kept, _)) = (Set::default(), fresh::<Set>(set));
    let start = (0, vec![0; 3 * path.len()]);
    Line {
        input: input.name,
        work: "steps of a path led back",
        units: path.len(),
        proved: side(start.clone(), move |(answer, rows), units| {
            *answer = monuvaleck::path_back(black_box(set), &path[..units], rows);
            assert!(*answer >= 0, "a path is refused");
        }),
        tuned: side(start.clone(), move |(answer, rows), units| {
            let read = machine.read_into(black_box(set));
            let written = read.and_then(|()| path_back::write(&machine, &path[..units], rows));
            *answer = code(written, |rows| rows as i32);
        }),
        kept: Some(side(start, move |(answer, rows), units| {
            let written = path_back::write(black_box(&kept), &path[..units], rows);
            *answer = code(written, |rows| rows as i32);
        })),
    }
}

/// The guard by itself. The proved side reads node records, the tuned one decoded nodes: neither checks them.
/// What the guard comes to tells that its nodes were worked out.
fn worked_out(input: &'static Input, truth: bool) -> Line {
    let bytes = inputs::nodes_of(&input.set);
    let (machine, run) = fresh::<Set>(&input.set);
    let (nodes, values) = (machine.nodes, run.shared.variables);
    let node = nodes.len() as u16 - 1;
    assert_eq!(nodes.truth(&values, node), Ok(truth), "some nodes are not worked out");
    Line {
        input: input.name,
        work: "guards worked out",
        units: input.masks.len(),
        proved: side(Answers::default(), move |answers, units| {
            for _ in 0..units {
                answers.add(code(comparison::truth(black_box(&bytes), &values, node), i32::from));
            }
        }),
        tuned: side(Answers::default(), move |answers, units| {
            for _ in 0..units {
                answers.add(code(black_box(&nodes).truth(&values, node), i32::from));
            }
        }),
        kept: None,
    }
}

/// What is done on a file of charts or of automata.
struct Works {
    checked: &'static str,
    turns: &'static str,
    cycles: &'static str,
    played: &'static str,
}

const CHARTS: Works = Works {
    checked: "sets checked",
    turns: "chart turns, each call checks",
    cycles: "chart cycles, each call checks",
    played: "chart cycles, checked once",
};
const AUTOMATA: Works = Works {
    checked: "tables checked",
    turns: "automata turns, each call checks",
    cycles: "automata cycles, each call checks",
    played: "automata cycles, checked once",
};

fn machine_lines<M: Proved<Run: SameRun> + 'static>(
    input: &'static Input,
    file: &'static [u8],
    works: &Works,
) -> [Line; 4] {
    [
        checked::<M>(input, works.checked, file),
        called((input, works.turns), file, &input.turns, M::Lent::turn, turn::<M>),
        called((input, works.cycles), file, &input.masks, M::Lent::cycle, cycle::<M>),
        played::<M>(input, works.played, file),
    ]
}

fn lines_of(input: &'static Input) -> Vec<Line> {
    let mut lines = Vec::from(machine_lines::<Set>(input, &input.set, &CHARTS));
    lines.extend(machine_lines::<Table>(input, &input.table, &AUTOMATA));
    lines.extend([
        // the buffer of one who does not know the length
        translated(input, "sets translated", LONGEST_TWIN),
        translated(input, "sets translated, no room to spare", input.table.len()),
        led_back(input),
    ]);
    lines
}

fn turn<M: Machine>(machine: &M, run: &mut M::Run, events: u32) -> i32 {
    code(machine.turn(run, events), Answer::code)
}

fn cycle<M: Machine>(machine: &M, run: &mut M::Run, events: u32) -> i32 {
    code(machine.cycle(run, events), |()| 0)
}

/// The lines whose name has the text, each with one part in so many of its units.
pub fn all(text: &str, part: usize) -> Vec<Line> {
    let mut lines: Vec<Line> = inputs::all(part).into_iter().flat_map(lines_of).collect();
    let guard = inputs::guard(part);
    lines.push(played::<Set>(guard, CHARTS.played, &guard.set));
    lines.push(worked_out(guard, false));
    lines.extend(inputs::nested_guards(part).map(|input| worked_out(input, input.name != "nots")));
    lines.extend(guards::lines(part));
    lines.retain(|line| format!("{}, {}", line.input, line.work).contains(text));
    lines
}
