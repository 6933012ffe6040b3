//! The two sides that are stepped, charts and automata: what the simulator reads and plays, and input for it.

use crate::monuvaleck::Stepped;
use crate::Values;
use simulator::charts::Waiting;
use simulator::deeds::GuardedDeed;
use simulator::expressions::Node;
use simulator::generate::calls::{events_of_set, events_of_table};
use simulator::generate::faulting_tables::faulting;
use simulator::generate::guarded_sets::guarded_set;
use simulator::generate::set_damage::{damage, Damaged, DAMAGES, NUMBERS};
use simulator::generate::sets::any_valid_set;
use simulator::generate::states::{self, Corruption};
use simulator::generate::{table_damage, table_states, tables};
use simulator::timing::{timing_holds, Timing};
use simulator::translation::twin;
use simulator::variables::Variable;
use simulator::{AutomataRun, AutomataTable, ChartSet, ChartsRun, Machine, Random};
use std::fmt::Debug;

/// The places that runs of both sides have.
pub struct Places<'a> {
    pub variables: &'a mut Values,
    pub events: &'a mut u32,
    pub position: &'a mut u32,
    pub cycles: &'a mut u32,
}

/// A set that is refused for one reason; rounds go through the numbers, ways are picked.
pub fn damaged(random: &mut Random, set: &[u8], round: usize) -> Option<Damaged> {
    let number = NUMBERS[round % NUMBERS.len()];
    let ways: Vec<_> = DAMAGES.iter().filter(|way| way.number == number).collect();
    let way = random.pick(&ways);
    damage(random, set, way)
}

/// A file before and after damage, and the number by which it is refused then.
pub struct Refused {
    pub good: Vec<u8>,
    pub bad: Vec<u8>,
    pub number: u32,
}

pub trait Side: Machine<Run: Stepped + Debug + Eq> + Sized + 'static {
    const CORRUPTIONS: &'static [Corruption<Self, Self::Run>];

    fn read(bytes: &[u8]) -> Result<Self, u32>;
    fn fresh(&self) -> Self::Run;
    /// The number of charts, or of automata.
    fn parts(&self) -> usize;
    fn variables(&self) -> &[Variable];
    fn nodes(&self) -> &[Node];
    /// The actions or updates of what the chart or automaton in turn takes, or does while it waits.
    fn deeds_in_turn(&self, run: &Self::Run) -> Vec<GuardedDeed>;
    /// The events that the file knows of.
    fn known(&self) -> u32;
    fn places(run: &mut Self::Run) -> Places<'_>;

    fn any_valid(random: &mut Random) -> Vec<u8>;
    /// A damaged file; rounds go through the ways.
    fn refused(random: &mut Random, round: usize) -> Option<Refused>;
    fn wild(random: &mut Random) -> Self::Run;
    fn late(&self, random: &mut Random, calls: usize) -> Self::Run;
    fn reached(&self, random: &mut Random, calls: usize) -> Self::Run;
    /// With any ages or clocks that are possible.
    fn aged(&self, random: &mut Random, calls: usize) -> Self::Run;
    /// Ages or clocks as high as they may be.
    fn raise_timers(&self, random: &mut Random, run: &mut Self::Run);
    /// The clauses of 12 that a run breaks, each asked by itself.
    fn broken_clauses(&self, run: &Self::Run) -> Vec<&'static str>;

    /// A fresh, reached, late or aged run.
    fn some_run(&self, random: &mut Random) -> Self::Run {
        let calls = random.pick(&[0, 1, 4, 12, 40]);
        match random.below(6) {
            0 => self.late(random, calls),
            1 => self.aged(random, calls),
            _ => self.reached(random, calls),
        }
    }
}

/// What a chart's present state does while it waits, where its age makes that due.
pub fn due_in<'a>(set: &'a ChartSet, run: &ChartsRun, chart: usize) -> Option<&'a Waiting> {
    let waiting = set.waiting[usize::from(run.states[chart])].as_ref();
    waiting.filter(|waiting| timing_holds(Timing::Every, run.ages[chart], waiting.ticks))
}

impl Side for ChartSet {
    const CORRUPTIONS: &'static [Corruption<ChartSet, ChartsRun>] = states::CHARTS_CORRUPTIONS;

    fn read(bytes: &[u8]) -> Result<ChartSet, u32> {
        ChartSet::read(bytes)
    }

    fn fresh(&self) -> ChartsRun {
        self.start()
    }

    fn parts(&self) -> usize {
        self.charts()
    }

    fn variables(&self) -> &[Variable] {
        &self.variables
    }

    fn nodes(&self) -> &[Node] {
        &self.nodes
    }

    fn deeds_in_turn(&self, run: &ChartsRun) -> Vec<GuardedDeed> {
        let chart = usize::try_from(run.position).expect("small") - 1;
        match self.first_that_holds(run, chart) {
            Ok(Some(transition)) => self.deeds_of(usize::from(transition)).copied().collect(),
            Ok(None) => due_in(self, run, chart).map_or(Vec::new(), |waiting| waiting.deeds.clone()),
            Err(_) => Vec::new(),
        }
    }

    fn known(&self) -> u32 {
        events_of_set(self)
    }

    fn places(run: &mut ChartsRun) -> Places<'_> {
        let ChartsRun { variables, events, position, cycles, .. } = run;
        Places { variables, events, position, cycles }
    }

    fn any_valid(random: &mut Random) -> Vec<u8> {
        any_valid_set(random)
    }

    fn refused(random: &mut Random, round: usize) -> Option<Refused> {
        let good = any_valid_set(random);
        let bad = damaged(random, &good, round)?;
        Some(Refused { good, bad: bad.bytes, number: bad.number })
    }

    fn wild(random: &mut Random) -> ChartsRun {
        states::wild_charts(random)
    }

    fn late(&self, random: &mut Random, calls: usize) -> ChartsRun {
        states::late_charts(random, self, calls)
    }

    fn reached(&self, random: &mut Random, calls: usize) -> ChartsRun {
        states::reached_charts(random, self, calls)
    }

    fn aged(&self, random: &mut Random, calls: usize) -> ChartsRun {
        states::aged_charts(random, self, calls)
    }

    fn raise_timers(&self, random: &mut Random, run: &mut ChartsRun) {
        run.ages[random.below(self.charts())] = run.cycles;
    }

    fn broken_clauses(&self, run: &ChartsRun) -> Vec<&'static str> {
        states::broken_clauses(self, run)
    }
}

impl Side for AutomataTable {
    const CORRUPTIONS: &'static [Corruption<AutomataTable, AutomataRun>] = states::AUTOMATA_CORRUPTIONS;

    fn read(bytes: &[u8]) -> Result<AutomataTable, u32> {
        AutomataTable::read(bytes)
    }

    fn fresh(&self) -> AutomataRun {
        self.start()
    }

    fn parts(&self) -> usize {
        self.automata()
    }

    fn variables(&self) -> &[Variable] {
        &self.variables
    }

    fn nodes(&self) -> &[Node] {
        &self.nodes
    }

    fn deeds_in_turn(&self, run: &AutomataRun) -> Vec<GuardedDeed> {
        let automaton = usize::try_from(run.position).expect("small") - 1;
        match self.open_edges(run, automaton).as_deref() {
            Ok([edge]) => self.edges[usize::from(*edge)].updates.clone(),
            _ => Vec::new(),
        }
    }

    fn known(&self) -> u32 {
        events_of_table(self)
    }

    fn places(run: &mut AutomataRun) -> Places<'_> {
        let AutomataRun { variables, events, position, cycles, .. } = run;
        Places { variables, events, position, cycles }
    }

    fn any_valid(random: &mut Random) -> Vec<u8> {
        match random.below(12) {
            0 | 1 => tables::translated(random),
            2 | 3 => tables::mutated(random),
            4 => tables::hand_made_sparse(random),
            5 => twin(&ChartSet::read(&guarded_set(random)).expect("an accepted set")),
            6..=8 => faulting(random),
            _ => tables::hand_made_small(random),
        }
    }

    fn refused(random: &mut Random, round: usize) -> Option<Refused> {
        let good = tables::hand_made_small(random);
        let way = &table_damage::DAMAGES[round % table_damage::DAMAGES.len()];
        let bad = table_damage::damage(random, &good, way)?;
        Some(Refused { good, bad, number: 11 })
    }

    fn wild(random: &mut Random) -> AutomataRun {
        states::wild_automata(random)
    }

    fn late(&self, random: &mut Random, calls: usize) -> AutomataRun {
        states::late_automata(random, self, calls)
    }

    fn reached(&self, random: &mut Random, calls: usize) -> AutomataRun {
        states::reached_automata(random, self, calls)
    }

    fn aged(&self, random: &mut Random, calls: usize) -> AutomataRun {
        states::aged_automata(random, self, calls)
    }

    fn raise_timers(&self, random: &mut Random, run: &mut AutomataRun) {
        for (value, clock) in run.clocks.iter_mut().zip(&self.clocks) {
            *value = random.pick(&[clock.top(), clock.top() - 1, *value]);
        }
    }

    fn broken_clauses(&self, run: &AutomataRun) -> Vec<&'static str> {
        table_states::broken_clauses(self, run)
    }
}
