//! Calls on lent runs, for either side: start, turns, cycles and many cycles at once, on fresh, reached, late and corrupted runs
//! and on refused files. After each call the answer and the whole run are compared with the simulator's.

use crate::met::Met;
use crate::monuvaleck::{Stepped, IDLE, TIME};
use crate::sides::{Places, Side};
use simulator::deeds::Scene;
use simulator::generate::calls::{call_list, mask, Call};
use simulator::generate::deed_outcomes::{outcomes, OUTCOMES};
use simulator::{Answer, Random};

/// A file, and what the simulator reads in it, once for many calls, or the number of its refusal.
pub struct File<S> {
    bytes: Vec<u8>,
    read: Result<S, u32>,
}

impl<S: Side> File<S> {
    pub fn of(bytes: Vec<u8>) -> File<S> {
        let read = S::read(&bytes);
        File { bytes, read }
    }

    pub fn any_valid(random: &mut Random) -> File<S> {
        File::of(S::any_valid(random))
    }

    pub fn accepted(&self) -> &S {
        self.read.as_ref().expect("a valid file")
    }

    /// Does the same on both sides: each has its own copy of the run. A refusal leaves it as it was.
    fn compare(
        &self,
        run: &mut S::Run,
        proved: impl FnOnce(&[u8], &mut S::Run) -> i32,
        simulated: impl FnOnce(&S, &mut S::Run) -> Result<i32, u32>,
    ) -> i32 {
        let (mut mine, mut right) = (*run, *run);
        let answer = proved(&self.bytes, &mut mine);
        let result =
            self.read.as_ref().map_err(|number| *number).and_then(|file| simulated(file, &mut right));
        let expected = result.unwrap_or_else(|number| -i32::try_from(number).expect("a small number"));
        assert_eq!((answer, mine), (expected, right), "on {run:?} of {:?}", self.bytes);
        assert!(answer >= 0 || mine == *run, "a refusal changed the run");
        *run = mine;
        answer
    }

    pub fn start(&self, run: &mut S::Run) -> i32 {
        self.compare(
            run,
            |bytes, run| run.start(bytes),
            |file, run| {
                *run = file.fresh();
                Ok(0)
            },
        )
    }

    pub fn call(&self, run: &mut S::Run, call: Call) -> i32 {
        match call {
            Call::Turn(events) => self.compare(
                run,
                |bytes, run| run.turn(bytes, events),
                |file, run| file.turn(run, events).map(Answer::code),
            ),
            Call::Cycle(events) => self.compare(
                run,
                |bytes, run| run.cycle(bytes, events),
                |file, run| file.cycle(run, events).map(|()| 0),
            ),
        }
    }

    pub fn play(&self, run: &mut S::Run, masks: &[u32]) -> i32 {
        self.compare(
            run,
            |bytes, run| run.play(bytes, masks),
            |file, run| file.play(run, masks).map(|played| i32::try_from(played).expect("a count of cycles")),
        )
    }
}

/// What a call met, by its answer.
fn note(met: &mut Met, call: Call, answer: i32) {
    met.add(match (call, answer) {
        (Call::Turn(_), IDLE) => "turn: idle".to_string(),
        (Call::Turn(_), TIME) => "turn: time".to_string(),
        (Call::Turn(_), 0..) => "turn: taken".to_string(),
        (Call::Cycle(_), 0..) => "cycle: done".to_string(),
        (Call::Turn(_), number) => format!("turn: {}", -number),
        (Call::Cycle(_), number) => format!("cycle: {}", -number),
    });
}

/// Whether a cycle that faults had taken a transition or an edge before, which the fault takes back.
fn took_before_fault<S: Side>(file: &S, run: &S::Run, events: u32) -> bool {
    let mut run = S::with_events(run, events);
    let mut took = false;
    loop {
        match file.advance(&mut run) {
            Ok(Answer::Taken(_)) => took = true,
            Ok(_) => {}
            Err(_) => return took,
        }
    }
}

/// What became of the guarded actions or updates of a turn, if it was a chart's or an automaton's.
pub fn note_guarded<S: Side>(met: &mut Met, file: &S, before: &S::Run, call: Call, answer: i32) {
    let (Call::Turn(events), 0..=IDLE | -17..=-15) = (call, answer) else { return };
    let mut run = S::with_events(before, events);
    let deeds = file.deeds_in_turn(&run);
    let Places { variables: values, events, .. } = S::places(&mut run);
    let mut scene = Scene { nodes: file.nodes(), variables: file.variables(), values, events };
    outcomes(&mut scene, &deeds).into_iter().for_each(|outcome| met.add(outcome));
}

/// Lists of calls on runs of every kind; `also` notes more of each call.
pub fn call_lists<S: Side>(seed: u64, also: impl Fn(&mut Met, &S, &S::Run, Call, i32)) -> Met {
    let mut random = Random::new(seed);
    let mut met = Met::default();
    for _ in 0..3_000 {
        let file = File::<S>::any_valid(&mut random);
        let read = file.accepted();
        for list in 0..8 {
            let mut run = S::wild(&mut random);
            for call in [Call::Turn(*S::places(&mut run).events), Call::Cycle(0)] {
                let mut copy = run;
                if file.call(&mut copy, call) == -12 {
                    met.add("any run: 12");
                }
            }
            assert_eq!(file.start(&mut run), 0);
            if list > 2 {
                run = read.some_run(&mut random);
            }
            let length = random.pick(&[4, 8, 8, 24]);
            for call in call_list(&mut random, read.parts(), read.known(), length) {
                let mut before = run;
                let answer = file.call(&mut run, call);
                note(&mut met, call, answer);
                note_guarded(&mut met, read, &before, call, answer);
                also(&mut met, read, &before, call, answer);
                let within = *S::places(&mut before).position > 1;
                let last = *S::places(&mut run).cycles == 1_000_000;
                match (call, answer) {
                    (Call::Cycle(events), -19..=-15) => {
                        if took_before_fault(read, &before, events) {
                            met.add("cycle: a fault after a step");
                        }
                    }
                    (Call::Cycle(_), 0) if within => met.add("cycle: from within"),
                    (Call::Cycle(_), 0) if last => met.add("cycle: the last"),
                    (Call::Turn(_), TIME) if last => met.add("turn: the last"),
                    _ => {}
                }
            }
            met.add("lists");
        }
    }
    println!("call lists: {:#?}", met.0);
    met.at_least(20_000, &["lists"]);
    met.at_least(2_000, &["turn: taken", "turn: time", "cycle: done", "cycle: from within", "any run: 12"]);
    met.at_least(500, &["turn: 13", "turn: 14", "cycle: 13", "cycle: 14"]);
    met.at_least(100, &["turn: the last", "cycle: the last", "cycle: a fault after a step"]);
    met.at_least(100, &["turn: 15", "turn: 16", "turn: 17", "cycle: 15", "cycle: 16", "cycle: 17"]);
    met.at_least(300, &OUTCOMES);
    met
}

/// The clause that a corruption is of.
fn clause_of(corruption: &str) -> &str {
    match corruption {
        "age far over cycle count" => "age over cycle count",
        same => same,
    }
}

pub fn runs_corrupted_by_one_clause_of_12<S: Side>(seed: u64) {
    let mut random = Random::new(seed);
    let mut met = Met::default();
    for _ in 0..3_500 {
        let file = File::<S>::any_valid(&mut random);
        let read = file.accepted();
        for corruption in S::CORRUPTIONS {
            let mut run = read.some_run(&mut random);
            assert_eq!(read.broken_clauses(&run), [""; 0]);
            if !(corruption.apply)(&mut random, read, &mut run) {
                continue;
            }
            if read.broken_clauses(&run) != [clause_of(corruption.clause)] {
                continue;
            }
            // Also with events where none may be given: 12 comes before 13.
            let events = mask(&mut random, read.known());
            for call in [Call::Turn(events), Call::Cycle(events)] {
                assert_eq!(file.call(&mut run, call), -12, "{}", corruption.clause);
            }
            assert_eq!(file.play(&mut run, &[events, 0]), -12);
            assert_eq!(file.play(&mut run, &[]), 0);
            met.add(corruption.clause);
        }
    }
    println!("corrupted by one clause alone: {:#?}", met.0);
    for corruption in S::CORRUPTIONS {
        met.at_least(500, &[corruption.clause]);
    }
}

/// The ends of the clauses of 12: what is just possible is not refused by it.
pub fn runs_at_the_ends_of_12<S: Side>(seed: u64) -> Met {
    let mut random = Random::new(seed);
    let mut met = Met::default();
    for _ in 0..4_000 {
        let file = File::<S>::any_valid(&mut random);
        let read = file.accepted();
        let mut run = read.some_run(&mut random);
        let Places { variables, events, position, cycles } = S::places(&mut run);
        for (value, variable) in variables.iter_mut().zip(read.variables()) {
            *value = random.pick(&[variable.lowest, variable.highest, *value]);
        }
        *position = 1 + u32::from(random.index(read.parts() + 1));
        *events = if *position == 1 { 0 } else { mask(&mut random, read.known()) };
        let most = if *position == 1 { 1_000_000 } else { 999_999 };
        *cycles = random.pick(&[(*cycles).min(most), 999_999, most]);
        let last = *cycles == 1_000_000;
        read.raise_timers(&mut random, &mut run);
        for call in [Call::Turn(0), Call::Cycle(0)] {
            let mut copy = run;
            let answer = file.call(&mut copy, call);
            assert_ne!(answer, -12, "{run:?}");
            assert_eq!(answer == -14, last);
            note(&mut met, call, answer);
        }
    }
    println!("at the ends: {:#?}", met.0);
    met.at_least(200, &["turn: taken", "turn: time", "turn: 14", "cycle: done", "cycle: 14"]);
    met
}

/// A refused file's number comes before anything of the run, and nothing changes.
pub fn refused_files<S: Side>(seed: u64) -> Met {
    let mut random = Random::new(seed);
    let mut met = Met::default();
    for round in 0..4_500 {
        let Some(file) = S::refused(&mut random, round) else {
            continue;
        };
        let refused = -i32::try_from(file.number).expect("small");
        met.add(format!("file: {}", file.number));
        let (good, bad) = (File::<S>::of(file.good), File::<S>::of(file.bad));
        let mut run = match random.below(2) {
            0 => S::wild(&mut random),
            _ => good.accepted().some_run(&mut random),
        };
        let events = mask(&mut random, u32::MAX);
        assert_eq!(bad.start(&mut run), refused);
        assert_eq!(bad.call(&mut run, Call::Turn(events)), refused);
        assert_eq!(bad.call(&mut run, Call::Cycle(events)), refused);
        assert_eq!(bad.play(&mut run, &[events]), refused);
        assert_eq!(bad.play(&mut run, &[]), refused);
    }
    println!("refused files: {:#?}", met.0);
    met
}

pub fn many_cycles_at_once<S: Side>(seed: u64) -> Met {
    let mut random = Random::new(seed);
    let mut met = Met::default();
    for _ in 0..4_000 {
        let file = File::<S>::any_valid(&mut random);
        let read = file.accepted();
        for _ in 0..4 {
            let mut run = read.some_run(&mut random);
            let within = *S::places(&mut run).position > 1;
            let masks: Vec<u32> = (0..random.pick(&[0, 1, 2, 5, 30, 200]))
                .map(|at| match at == 0 && within && random.chance(7, 8) {
                    true => 0,
                    false => mask(&mut random, read.known()),
                })
                .collect();
            let answer = file.play(&mut run, &masks);
            let last = *S::places(&mut run).cycles == 1_000_000;
            met.add(match usize::try_from(answer) {
                Err(_) => format!("first refused: {}", -answer),
                Ok(0) => "no masks".to_string(),
                Ok(played) if played == masks.len() => "all".to_string(),
                Ok(_) if last => "stopped by 14".to_string(),
                Ok(_) => "stopped by a fault".to_string(),
            });
        }
    }
    println!("many cycles: {:#?}", met.0);
    met.at_least(500, &["all", "no masks"]);
    met.at_least(100, &["stopped by 14", "stopped by a fault", "first refused: 13", "first refused: 14"]);
    met.at_least(30, &["first refused: 15", "first refused: 16", "first refused: 17"]);
    met
}

/// As long as a run of a small file without faults can be, and one mask more.
pub fn the_longest_run<S: Side>(file: Vec<u8>, mut run: S::Run, seed: u64) {
    let mut random = Random::new(seed);
    let masks: Vec<u32> = (0..1_000_001).map(|_| random.pick(&[0, 1, 2, 3])).collect();
    let file = File::<S>::of(file);
    assert_eq!(file.start(&mut run), 0);
    assert_eq!(file.play(&mut run, &masks), 1_000_000);
    assert_eq!(file.play(&mut run, &masks), -14);
}

/// So many cycles of a file with the most of each kind.
pub fn a_largest_file<S: Side>(random: &mut Random, file: Vec<u8>, mut run: S::Run, cycles: usize) {
    let file = File::<S>::of(file);
    assert_eq!(file.start(&mut run), 0);
    let known = file.accepted().known();
    let masks: Vec<u32> = (0..cycles).map(|_| mask(random, known)).collect();
    println!("the largest played {} cycles", file.play(&mut run, &masks));
    assert_eq!(file.start(&mut run), 0);
    for call in call_list(random, file.accepted().parts(), known, 30) {
        file.call(&mut run, call);
    }
}
