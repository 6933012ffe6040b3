//! Runs of chart sets.

use comparison::calls::{self, File};
use comparison::met::Met;
use comparison::monuvaleck::{IDLE, TIME};
use comparison::sides::due_in;
use simulator::chart_sets::{ring, two_waiting, zero_watch};
use simulator::charts::Trigger;
use simulator::generate::calls::Call;
use simulator::generate::set_damage::NUMBERS;
use simulator::generate::sets::{valid_set, Size};
use simulator::timing::Timing;
use simulator::{ChartSet, ChartsRun, Machine, Random};

/// Of a turn that took a transition with `after`: whether it was due just then, or had to wait.
fn note_due(met: &mut Met, set: &ChartSet, before: &ChartsRun, call: Call, answer: i32) {
    let (Call::Turn(_), 0..IDLE) = (call, answer) else { return };
    let age = before.ages[before.position as usize - 1];
    if let Trigger::Timed(Timing::After, ticks) = set.transitions[answer as usize].trigger {
        met.add(if age == ticks { "after: at its ticks" } else { "after: later" });
    }
}

/// Of a turn in a state with waiting actions: whether they were due, and what came of it.
fn note_waiting(met: &mut Met, set: &ChartSet, before: &ChartsRun, call: Call, answer: i32) {
    let (Call::Turn(events), 0..=IDLE | -17..=-15) = (call, answer) else { return };
    let run = ChartSet::with_events(before, events);
    let chart = before.position as usize - 1;
    let due = due_in(set, &run, chart);
    if set.waiting[usize::from(run.states[chart])].is_none() {
        return;
    }
    met.add(match (set.first_that_holds(&run, chart), due) {
        (Ok(None), Some(_)) if answer < 0 => "waiting: a fault",
        (Ok(None), Some(waiting)) if waiting.deeds.len() > 1 => "waiting: due, several",
        (Ok(None), Some(_)) => "waiting: due",
        (Ok(None), None) if run.ages[chart] == 0 => "waiting: age 0",
        (Ok(None), None) => "waiting: not due",
        (_, Some(_)) => "waiting: due, but not idle",
        (_, None) => "waiting: neither due nor idle",
    });
}

#[test]
fn call_lists() {
    let met = calls::call_lists(21, |met, set, before, call, answer| {
        note_due(met, set, before, call, answer);
        note_waiting(met, set, before, call, answer);
    });
    met.at_least(100, &["after: at its ticks", "after: later"]);
    met.at_least(300, &["waiting: due", "waiting: due, several", "waiting: not due", "waiting: a fault"]);
    met.at_least(300, &["waiting: due, but not idle", "waiting: neither due nor idle"]);
    // An age of a chart in turn that only lent runs have.
    met.at_least(30, &["waiting: age 0"]);
    met.at_least(2_000, &["turn: idle"]);
    met.at_least(500, &["cycle: the last"]);
}

#[test]
fn runs_corrupted_by_one_clause_of_12() {
    calls::runs_corrupted_by_one_clause_of_12::<ChartSet>(22);
}

#[test]
fn runs_at_the_ends_of_12() {
    calls::runs_at_the_ends_of_12::<ChartSet>(23).at_least(200, &["turn: idle"]);
}

#[test]
fn refused_files() {
    let met = calls::refused_files::<ChartSet>(24);
    for number in NUMBERS {
        met.at_least(200, &[&format!("file: {number}")]);
    }
}

#[test]
fn many_cycles_at_once() {
    calls::many_cycles_at_once::<ChartSet>(25);
}

/// Each state of a ring is entered and left, by cycles and by turns, on both sides of 16 states, up to which a call makes 16 rows.
#[test]
fn few_and_many_states() {
    for states in [2, 15, 16, 17, 18, 127, 128] {
        let file = File::<ChartSet>::of(ring(states));
        let mut run = ChartsRun::ZERO;
        for calls in [vec![Call::Cycle(0)], vec![Call::Turn(0), Call::Turn(0)]] {
            assert_eq!(file.start(&mut run), 0);
            for entered in 1..states {
                calls.iter().for_each(|call| assert!(file.call(&mut run, *call) >= 0));
                assert_eq!(run.states[0], entered);
            }
            let last = i32::from(2 * (states - 2) + 1);
            assert_eq!(file.call(&mut run, Call::Turn(1)), last, "by the event, to state 1");
            assert_eq!((run.states[0], file.call(&mut run, Call::Turn(0))), (1, TIME));
        }
    }
}

#[test]
fn the_longest_run_and_the_largest_set() {
    calls::the_longest_run::<ChartSet>(zero_watch(), ChartsRun::ZERO, 26);
    calls::the_longest_run::<ChartSet>(two_waiting(250, 250), ChartsRun::ZERO, 28);
    let mut random = Random::new(27);
    let largest = valid_set(&mut random, Size::Largest);
    calls::a_largest_file::<ChartSet>(&mut random, largest, ChartsRun::ZERO, 5_000);
}
