//! Charts against their own twins over random call lists.

use simulator::automata::AutomataTable;
use simulator::charts::{ChartSet, Trigger};
use simulator::correspondence::correspond;
use simulator::deeds::GuardedDeed;
use simulator::generate::calls::{call_list, events_of_set, Call, CallAnswer};
use simulator::generate::deed_outcomes::{outcomes, OUTCOMES};
use simulator::generate::guarded_sets::guarded_set;
use simulator::generate::idling_sets::idling_set;
use simulator::generate::longest_twins::{longest, most_resets};
use simulator::generate::sets::{valid_set, Size};
use simulator::generate::states::late_count;
use simulator::generate::waiting_sets::waiting_set;
use simulator::runs::{Answer, AutomataRun, ChartsRun};
use simulator::timing::{timing_holds, Timing};
use simulator::translation::twin;
use simulator::Machine;
use simulator::{chart_sets, Random};
use std::collections::BTreeMap;

/// How often each outcome came up.
type Tally = BTreeMap<String, usize>;

const WAITED: [&str; 4] = ["one due", "several due", "not due", "left where due"];

const TAKEN: [&str; 4] =
    ["taken without trigger", "taken by event", "taken after, at its ticks", "taken every"];

fn count(tally: &mut Tally, what: impl ToString) {
    *tally.entry(what.to_string()).or_default() += 1;
}

struct Pair {
    set: ChartSet,
    table: AutomataTable,
    charts: ChartsRun,
    automata: AutomataRun,
}

impl Pair {
    fn new(bytes: &[u8]) -> Pair {
        let set = ChartSet::read(bytes).expect("a valid set is accepted");
        let table = AutomataTable::read(&twin(&set)).expect("a twin is accepted");
        let (charts, automata) = (set.start(), table.start());
        Pair { set, table, charts, automata }
    }

    /// Of a turn to come: what becomes of the guarded actions that it does, and whether waiting ones are due.
    fn count_actions(&self, call: Call, tally: &mut Tally) {
        let Call::Turn(events) = call else { return };
        let turn = usize::try_from(self.charts.position).expect("small") - 1;
        if turn == self.set.charts() || self.set.check_before_turn(&self.charts, events).is_err() {
            return;
        }
        let mut given = ChartSet::with_events(&self.charts, events);
        let (state, age) = (usize::from(given.states[turn]), given.ages[turn]);
        let waiting = self.set.waiting[state].as_ref();
        let due = waiting.filter(|waiting| timing_holds(Timing::Every, age, waiting.ticks));
        let deeds: Vec<GuardedDeed> = match (self.set.first_that_holds(&given, turn), due) {
            (Ok(Some(transition)), due) => {
                due.iter().for_each(|_| count(tally, "left where due"));
                self.set.deeds_of(usize::from(transition)).copied().collect()
            }
            (Ok(None), Some(due)) => {
                count(tally, if due.deeds.len() > 1 { "several due" } else { "one due" });
                due.deeds.clone()
            }
            (Ok(None), None) => {
                waiting.iter().for_each(|_| count(tally, "not due"));
                return;
            }
            (Err(_), _) => return,
        };
        let outcomes = outcomes(&mut self.set.scene(&mut given), &deeds);
        outcomes.into_iter().for_each(|outcome| count(tally, outcome));
    }

    fn follow(&mut self, calls: &[Call], tally: &mut Tally, place: &str) {
        for (number, call) in calls.iter().enumerate() {
            let before = (self.charts, self.automata);
            self.one_open_edge(*call);
            self.count_actions(*call, tally);
            let chart = call.on_charts(&self.set, &mut self.charts);
            let edge = call.on_automata(&self.table, &mut self.automata);
            let place = format!("{place}, call {number} {call:?}: {chart:?} against {edge:?}");
            self.agree(chart, edge, &before.0, tally, &place);
            if chart.is_err() {
                assert_eq!((self.charts, self.automata), before, "a refused call changes nothing: {place}");
            }
            assert!(correspond(&self.table, &self.charts, &self.automata), "{place}");
        }
    }

    /// Where a chart's turn is due, reading the edges gives one open edge or the chart's own fault.
    fn one_open_edge(&self, call: Call) {
        let Call::Turn(events) = call else { return };
        let turn = usize::try_from(self.charts.position).expect("small") - 1;
        if turn == self.set.charts() || self.table.check_before_turn(&self.automata, events).is_err() {
            return;
        }
        let given = AutomataRun { events: self.automata.events | events, ..self.automata };
        match self.table.open_edges(&given, turn) {
            Ok(open) => assert_eq!(open.len(), 1, "exactly one open edge"),
            Err(fault) => assert!((15..=16).contains(&fault), "a guard's fault"),
        }
    }

    fn agree(
        &self,
        chart: Result<CallAnswer, u32>,
        edge: Result<CallAnswer, u32>,
        before: &ChartsRun,
        tally: &mut Tally,
        place: &str,
    ) {
        use CallAnswer::{Done, Turn};
        match (chart, edge) {
            (Ok(Turn(Answer::Taken(transition))), Ok(Turn(Answer::Taken(edge)))) => {
                assert_eq!(transition, edge, "{place}");
                count(tally, "taken");
                let age = before.ages[usize::try_from(before.position).expect("small") - 1];
                count(
                    tally,
                    match self.set.transitions[usize::from(transition)].trigger {
                        Trigger::None => "taken without trigger",
                        Trigger::Event(_) => "taken by event",
                        Trigger::Timed(Timing::After, ticks) if age == ticks => "taken after, at its ticks",
                        Trigger::Timed(Timing::After, _) => "taken after, later",
                        Trigger::Timed(Timing::Every, _) => "taken every",
                    },
                );
            }
            (Ok(Turn(Answer::Idle)), Ok(Turn(Answer::Taken(edge)))) => {
                let state = before.states[usize::try_from(before.position).expect("small") - 1];
                let edge = &self.table.edges[usize::from(edge)];
                assert!(edge.idle && edge.source == state && edge.target == state, "{place}");
                count(tally, "idle");
            }
            (Ok(Turn(Answer::Time)), Ok(Turn(Answer::Time))) => count(tally, "time"),
            (Ok(Done), Ok(Done)) => count(tally, "done"),
            (Err(one), Err(other)) => {
                assert_eq!(one, other, "{place}");
                count(tally, one);
            }
            _ => panic!("answers of different sorts: {place}"),
        }
    }
}

fn compare(seed: u64, size: Size, calls: usize, tally: &mut Tally) {
    let mut random = Random::new(seed);
    let mut pair = Pair::new(&valid_set(&mut random, size));
    let known = events_of_set(&pair.set);
    let list = call_list(&mut random, pair.set.charts(), known, calls);
    pair.follow(&list, tally, &format!("seed {seed} {size:?}"));
    // The last cycles that a run may do: both counts are moved on together.
    let late = late_count(&mut random, pair.charts.position);
    pair.charts.cycles = late;
    pair.automata.cycles = late;
    let list = call_list(&mut random, pair.set.charts(), known, 12);
    pair.follow(&list, tally, &format!("seed {seed} {size:?}, late"));
}

fn assert_reached(tally: &Tally, outcomes: &[&str]) {
    for outcome in outcomes {
        assert!(tally.get(*outcome).copied().unwrap_or(0) > 0, "{outcome} never came up: {tally:?}");
    }
}

#[test]
fn tiny_sets_go_with_their_twins() {
    let mut tally = Tally::new();
    for seed in 0..3_000 {
        compare(seed, Size::Tiny, 60, &mut tally);
    }
    assert_reached(&tally, &["taken", "idle", "time", "done", "13", "14", "15", "16", "17"]);
    assert_reached(&tally, &TAKEN);
    assert_reached(&tally, &OUTCOMES);
    assert_reached(&tally, &WAITED);
    assert!(!tally.contains_key("18") && !tally.contains_key("19") && !tally.contains_key("12"));
}

#[test]
fn middling_sets_go_with_their_twins() {
    let mut tally = Tally::new();
    for seed in 0..1_500 {
        compare(10_000 + seed, Size::Middling, 60, &mut tally);
    }
    assert_reached(&tally, &["taken", "idle", "time", "done", "13", "14", "15", "16", "17"]);
    assert_reached(&tally, &TAKEN);
    assert_reached(&tally, &OUTCOMES);
    assert_reached(&tally, &WAITED);
    assert!(!tally.contains_key("18") && !tally.contains_key("19") && !tally.contains_key("12"));
}

#[test]
fn largest_sets_go_with_their_twins() {
    let mut tally = Tally::new();
    for seed in 0..60 {
        compare(20_000 + seed, Size::Largest, 120, &mut tally);
    }
    assert_reached(&tally, &["taken", "idle", "time", "done", "13", "14", "17"]);
    assert_reached(&tally, &TAKEN);
}

#[test]
fn due_times_that_wait_go_with_their_twins() {
    let mut tally = Tally::new();
    for seed in 0..2_000 {
        let mut random = Random::new(30_000 + seed);
        let mut pair = Pair::new(&waiting_set(&mut random));
        let calls = call_list(&mut random, pair.set.charts(), events_of_set(&pair.set), 60);
        pair.follow(&calls, &mut tally, &format!("waiting set {seed}"));
    }
    assert_reached(&tally, &TAKEN);
    assert!(tally["taken after, later"] > 500, "{tally:?}");
}

#[test]
fn guarded_actions_go_with_their_twins() {
    let mut tally = Tally::new();
    for seed in 0..2_000 {
        let mut random = Random::new(40_000 + seed);
        let mut pair = Pair::new(&guarded_set(&mut random));
        let calls = call_list(&mut random, pair.set.charts(), events_of_set(&pair.set), 60);
        pair.follow(&calls, &mut tally, &format!("guarded set {seed}"));
    }
    assert_reached(&tally, &["taken", "idle", "15", "16", "17"]);
    for outcome in OUTCOMES {
        assert!(tally.get(outcome).copied().unwrap_or(0) > 500, "{outcome}: {tally:?}");
    }
}

#[test]
fn waiting_actions_go_with_their_twins() {
    let mut tally = Tally::new();
    for seed in 0..2_000 {
        let mut random = Random::new(50_000 + seed);
        let mut pair = Pair::new(&idling_set(&mut random));
        let calls = call_list(&mut random, pair.set.charts(), events_of_set(&pair.set), 60);
        pair.follow(&calls, &mut tally, &format!("idling set {seed}"));
    }
    assert_reached(&tally, &["taken", "idle", "15", "16", "17"]);
    for outcome in OUTCOMES.iter().chain(&WAITED) {
        assert!(tally.get(*outcome).copied().unwrap_or(0) > 300, "{outcome}: {tally:?}");
    }
}

#[test]
fn sets_with_the_longest_twins_go_with_them() {
    let mut tally = Tally::new();
    for seed in 0..12 {
        let mut random = Random::new(60_000 + seed);
        let full = if seed % 2 == 0 { longest(&mut random) } else { most_resets(&mut random) };
        let mut pair = Pair::new(&full);
        let calls = call_list(&mut random, pair.set.charts(), events_of_set(&pair.set), 200);
        pair.follow(&calls, &mut tally, &format!("full set {seed}"));
    }
    assert_reached(&tally, &["taken", "idle", "one due", "not due"]);
}

#[test]
fn named_sets_go_with_their_twins() {
    let mut tally = Tally::new();
    for (name, bytes) in chart_sets::all() {
        for seed in 0..40 {
            let mut random = Random::new(seed);
            let mut pair = Pair::new(&bytes);
            let calls = call_list(&mut random, pair.set.charts(), events_of_set(&pair.set), 60);
            pair.follow(&calls, &mut tally, name);
        }
    }
    assert_reached(&tally, &["taken", "idle", "time", "done", "13", "16", "17"]);
}

/// Long quiet runs, in which ages pass the tops of the clocks many times over.
#[test]
fn clocks_follow_long_ages() {
    let mut tally = Tally::new();
    for seed in 0..60 {
        let mut random = Random::new(seed);
        let mut pair = Pair::new(&valid_set(&mut random, Size::Tiny));
        let calls = vec![Call::Cycle(0); 2_000];
        pair.follow(&calls, &mut tally, &format!("long run {seed}"));
    }
    assert_reached(&tally, &["done"]);
}
