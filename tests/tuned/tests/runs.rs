//! Runs, charts' and automata's: the answers of the simulator, and its runs after each call.

use simulator::generate::calls::{call_list, events_of_set, events_of_table, mask, Call};
use simulator::generate::sets::any_valid_set;
use simulator::generate::states::{self, Corruption};
use simulator::generate::{faulting_tables, tables};
use simulator::{AutomataTable, ChartSet, Random};
use std::collections::BTreeMap;
use std::fmt::Debug;
use tuned::automata::Table;
use tuned::charts::Set;
use tuned::machine::{Answer, Machine};
use tuned::runs::{AutomataRun, ChartsRun, Shared};

/// The simulator's machine, with the tuned one beside it.
trait Right: simulator::Machine + Sized + 'static {
    type Tuned: Machine<Run: Debug + PartialEq>;
    const CORRUPTIONS: &'static [Corruption<Self, Self::Run>];

    fn right(bytes: &[u8]) -> Self;
    fn fresh(&self) -> Self::Run;
    fn parts(&self) -> usize;
    fn events(&self) -> u32;
    fn wild(random: &mut Random) -> Self::Run;
    fn late(&self, random: &mut Random) -> Self::Run;
    fn reached(&self, random: &mut Random) -> Self::Run;
    fn same(run: &Self::Run) -> <Self::Tuned as Machine>::Run;
}

impl Right for ChartSet {
    type Tuned = Set;
    const CORRUPTIONS: &'static [Corruption<Self, Self::Run>] = states::CHARTS_CORRUPTIONS;

    fn right(bytes: &[u8]) -> Self {
        ChartSet::read(bytes).expect("valid")
    }
    fn fresh(&self) -> Self::Run {
        self.start()
    }
    fn parts(&self) -> usize {
        self.charts()
    }
    fn events(&self) -> u32 {
        events_of_set(self)
    }
    fn wild(random: &mut Random) -> Self::Run {
        states::wild_charts(random)
    }
    fn late(&self, random: &mut Random) -> Self::Run {
        states::late_charts(random, self, 8)
    }
    fn reached(&self, random: &mut Random) -> Self::Run {
        states::reached_charts(random, self, 20)
    }
    fn same(run: &Self::Run) -> ChartsRun {
        let Self::Run { states, ages, variables, events, position, cycles } = *run;
        ChartsRun { states, ages, shared: Shared { variables, events, position, cycles } }
    }
}

impl Right for AutomataTable {
    type Tuned = Table;
    const CORRUPTIONS: &'static [Corruption<Self, Self::Run>] = states::AUTOMATA_CORRUPTIONS;

    fn right(bytes: &[u8]) -> Self {
        AutomataTable::read(bytes).expect("valid")
    }
    fn fresh(&self) -> Self::Run {
        self.start()
    }
    fn parts(&self) -> usize {
        self.automata()
    }
    fn events(&self) -> u32 {
        events_of_table(self)
    }
    fn wild(random: &mut Random) -> Self::Run {
        states::wild_automata(random)
    }
    fn late(&self, random: &mut Random) -> Self::Run {
        states::late_automata(random, self, 8)
    }
    fn reached(&self, random: &mut Random) -> Self::Run {
        states::reached_automata(random, self, 20)
    }
    fn same(run: &Self::Run) -> AutomataRun {
        let Self::Run { locations, clocks, variables, events, position, cycles } = *run;
        AutomataRun { locations, clocks, shared: Shared { variables, events, position, cycles } }
    }
}

/// Makes a call on both sides; its answer, or the number of its refusal.
fn call<R: Right>(tuned: &R::Tuned, right: &R, run: &mut R::Run, call: Call) -> Result<i32, u32> {
    let mut mine = R::same(run);
    let (answer, expected) = match call {
        Call::Turn(events) => (
            tuned.turn(&mut mine, events).map(Answer::code),
            right.turn(run, events).map(simulator::Answer::code),
        ),
        Call::Cycle(events) => {
            (tuned.cycle(&mut mine, events).map(|()| 0), right.cycle(run, events).map(|()| 0))
        }
    };
    assert_eq!((answer, mine), (expected, R::same(run)));
    answer
}

fn play<R: Right>(tuned: &R::Tuned, right: &R, run: &mut R::Run, masks: &[u32]) {
    let mut mine = R::same(run);
    assert_eq!(tuned.play(&mut mine, masks), right.play(run, masks));
    assert_eq!(mine, R::same(run));
}

/// Lists of calls from a fresh, late or reached run, with wild and corrupted runs in between, then a play; the refusals met are
/// noted.
fn lists<R: Right>(random: &mut Random, tuned: &R::Tuned, right: &R, met: &mut BTreeMap<u32, usize>) {
    for list in 0..6 {
        let _ = call(tuned, right, &mut R::wild(random), Call::Cycle(0));
        let mut run = match list {
            0..=2 => right.fresh(),
            3 => right.late(random),
            _ => right.reached(random),
        };
        for one in call_list(random, right.parts(), right.events(), 24) {
            *met.entry(call(tuned, right, &mut run, one).err().unwrap_or(0)).or_default() += 1;
            for corruption in R::CORRUPTIONS.iter().filter(|_| list == 0) {
                let mut broken = run;
                if (corruption.apply)(random, right, &mut broken) {
                    let _ = call(tuned, right, &mut broken, one);
                }
            }
        }
        let masks: Vec<u32> = (0..30).map(|_| mask(random, right.events())).collect();
        play(tuned, right, &mut run, &masks);
    }
}

fn runs<R: Right>(seed: u64, file: impl Fn(&mut Random, usize) -> Vec<u8>, numbers: &[u32]) {
    let mut random = Random::new(seed);
    let mut kept = R::Tuned::default();
    let mut met = BTreeMap::new();
    for round in 0..400 {
        let bytes = file(&mut random, round);
        let right = R::right(&bytes);
        kept.read_into(&bytes).expect("valid");
        assert_eq!(kept.start(), R::same(&right.fresh()));
        lists(&mut random, &kept, &right, &mut met);
    }
    assert!(numbers.iter().all(|number| met.contains_key(number)), "{met:?}");
}

#[test]
fn chart_runs() {
    runs::<ChartSet>(103, |random, _| any_valid_set(random), &[0, 13, 14, 15, 16, 17]);
}

#[test]
fn automata_runs() {
    let file = |random: &mut Random, round: usize| match round % 4 {
        0 => faulting_tables::faulting(random),
        _ => tables::any_table(random),
    };
    runs::<AutomataTable>(104, file, &[0, 13, 14, 15, 16, 17, 18, 19]);
}
