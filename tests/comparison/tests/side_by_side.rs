//! Sets beside their twins, through the proved code alone: the same calls, and after each the runs correspond.

use comparison::calls::note_guarded;
use comparison::halves::half;
use comparison::met::Met;
use comparison::monuvaleck::{twin_of, Stepped, IDLE, TIME};
use comparison::sides::due_in;
use simulator::correspondence::correspond;
use simulator::generate::calls::{call_list, events_of_set, Call};
use simulator::generate::deed_outcomes::OUTCOMES;
use simulator::generate::guarded_sets::guarded_set;
use simulator::generate::idling_sets::idling_set;
use simulator::generate::sets::{valid_set, Size};
use simulator::generate::states::late_count;
use simulator::generate::waiting_sets::waiting_set;
use simulator::records::{whole_records, TRANSITION};
use simulator::translation::idle_edges;
use simulator::{AutomataRun, AutomataTable, ChartSet, ChartsRun, Random};

/// A set and its twin, both as bytes that the proved code reads, with their runs.
struct Pair {
    set: Vec<u8>,
    twin: Vec<u8>,
    read: ChartSet,
    table: AutomataTable,
    charts: ChartsRun,
    automata: AutomataRun,
}

impl Pair {
    fn of(set: Vec<u8>) -> Pair {
        let twin = twin_of(&set);
        let read = ChartSet::read(&set).expect("an accepted set");
        let table = AutomataTable::read(&twin).expect("a twin is accepted");
        let (mut charts, mut automata) = (ChartsRun::ZERO, AutomataRun::ZERO);
        assert_eq!((charts.start(&set), automata.start(&twin)), (0, 0));
        Pair { set, twin, read, table, charts, automata }
    }

    fn follow(&mut self, calls: &[Call], met: &mut Met) {
        assert!(correspond(&self.table, &self.charts, &self.automata));
        for call in calls {
            let before = self.charts;
            let (chart, edge) = match *call {
                Call::Turn(events) => {
                    (self.charts.turn(&self.set, events), self.automata.turn(&self.twin, events))
                }
                Call::Cycle(events) => {
                    (self.charts.cycle(&self.set, events), self.automata.cycle(&self.twin, events))
                }
            };
            self.agree(*call, chart, edge, &before, met);
            note_guarded(met, &self.read, &before, *call, chart);
            assert!(
                correspond(&self.table, &self.charts, &self.automata),
                "{call:?} on {before:?} of {:?}",
                self.set
            );
        }
    }

    /// Idling with an idle edge of the state, the due one where waiting actions are due.
    fn agree_on_idling(&self, edge: i32, before: &ChartsRun) -> &'static str {
        let chart = before.position as usize - 1;
        let (state, due) = (before.states[chart], due_in(&self.read, before, chart).is_some());
        let own = &idle_edges(&self.read)[usize::from(state)];
        assert_eq!(
            edge,
            i32::from(if due { own.start } else { own.end - 1 }),
            "{before:?} of {:?}",
            self.set
        );
        let edge = &self.table.edges[edge as usize];
        assert!(edge.idle && edge.source == state && edge.target == state, "{before:?} of {:?}", self.set);
        match (due, own.len()) {
            (true, _) => "idle, due",
            (false, 1) => "idle",
            (false, _) => "idle, not due",
        }
    }

    /// Transition t with edge t, all but idling with the same.
    fn agree(&self, call: Call, chart: i32, edge: i32, before: &ChartsRun, met: &mut Met) {
        let place = || format!("{call:?} on {before:?} of {:?}", self.set);
        if chart == IDLE && matches!(call, Call::Turn(_)) {
            met.add(self.agree_on_idling(edge, before));
            return;
        }
        assert_eq!(chart, edge, "{}", place());
        if let (Call::Turn(_), 0..IDLE) = (call, chart) {
            let mut transitions = whole_records(&self.set).iter().filter(|record| record[0] == TRANSITION);
            let half = transitions.nth(chart as usize).and_then(half);
            half.into_iter().for_each(|half| met.add(format!("taken: {half}")));
        }
        met.add(match (call, chart) {
            (Call::Cycle(_), 0) => "done".to_string(),
            (Call::Turn(_), TIME) => "time".to_string(),
            (_, 0..) => "taken".to_string(),
            (_, number) => format!("{}", -number),
        });
    }
}

#[test]
fn sets_go_with_their_twins() {
    let mut random = Random::new(71);
    let mut met = Met::default();
    for round in 0..4_000 {
        let bytes = match round % 100 {
            0 => valid_set(&mut random, Size::Largest),
            other if other % 10 == 5 => waiting_set(&mut random),
            other if other % 10 == 7 => guarded_set(&mut random),
            other if other % 10 == 9 => idling_set(&mut random),
            other if other % 2 == 0 => valid_set(&mut random, Size::Middling),
            _ => valid_set(&mut random, Size::Tiny),
        };
        let mut pair = Pair::of(bytes);
        let (charts, known) = (pair.read.charts(), events_of_set(&pair.read));
        let calls = call_list(&mut random, charts, known, 40);
        pair.follow(&calls, &mut met);
        // The last cycles that a run may do: both counts are moved on together.
        let late = late_count(&mut random, pair.charts.position);
        (pair.charts.cycles, pair.automata.cycles) = (late, late);
        let calls = call_list(&mut random, charts, known, 12);
        pair.follow(&calls, &mut met);
        met.add("sets");
    }
    println!("side by side: {:#?}", met.0);
    met.at_least(4_000, &["sets", "taken", "idle", "time", "done"]);
    met.at_least(300, &["idle, due", "idle, not due"]);
    met.at_least(500, &["13", "14"]);
    met.at_least(100, &["15", "16", "17"]);
    met.at_least(100, &["taken: a half above an even tick", "taken: a half above an odd tick"]);
    met.at_least(300, &OUTCOMES);
    assert_eq!((met.count("12"), met.count("18"), met.count("19")), (0, 0, 0));
}

/// Long quiet runs, in which ages pass the tops of the clocks many times over.
#[test]
fn clocks_follow_long_ages() {
    let mut random = Random::new(72);
    let mut met = Met::default();
    for round in 0..80 {
        let mut pair = Pair::of(match round % 2 {
            0 => valid_set(&mut random, Size::Tiny),
            _ => idling_set(&mut random),
        });
        pair.follow(&[Call::Cycle(0); 2_000], &mut met);
    }
    println!("long runs: {:#?}", met.0);
    met.at_least(80_000, &["done"]);
}
