//! Refusals 12, 13 and 14: runs of any content before a turn.

use simulator::automata::{self, AutomataTable};
use simulator::chart_sets::{relay, winch, zero_watch};
use simulator::charts::{self, ChartSet};
use simulator::generate::sets::any_valid_set;
use simulator::generate::states::*;
use simulator::generate::tables::any_table;
use simulator::runs::{AutomataRun, ChartsRun};
use simulator::translation::twin;
use simulator::Machine;
use simulator::{Answer, Random};

#[test]
fn a_fresh_run_is_as_said() {
    let run = charts::start(&relay()).unwrap();
    let mut expected = ChartsRun { position: 1, ..ChartsRun::ZERO };
    expected.states[1] = 2;
    assert_eq!(run, expected);
    let run = charts::start(&zero_watch()).unwrap();
    assert_eq!((run.variables[0], run.variables[1]), (1, 0));
    let table = twin(&ChartSet::read(&relay()).unwrap());
    let mut expected = AutomataRun { position: 1, ..AutomataRun::ZERO };
    expected.locations[1] = 2;
    assert_eq!(automata::start(&table).unwrap(), expected);
}

/// Turn and cycle of the two-chart set `relay` for a run changed from the fresh one.
fn relay_with(change: impl FnOnce(&mut ChartsRun), events: u32) -> u32 {
    let set = relay();
    let mut run = charts::start(&set).unwrap();
    change(&mut run);
    let turn = charts::turn(&set, &run, events).err().unwrap_or(0);
    assert_eq!(charts::cycle(&set, &run, events).err().unwrap_or(0), turn);
    turn
}

#[test]
fn twelve_for_charts() {
    assert_eq!(relay_with(|_| {}, 0), 0);
    assert_eq!(relay_with(|run| run.states[0] = 2, 0), 12, "a state of another chart");
    assert_eq!(relay_with(|run| run.states[1] = 4, 0), 12, "no such state");
    assert_eq!(relay_with(|run| run.states[2] = 1, 0), 12, "an unused state");
    assert_eq!(relay_with(|run| run.ages[0] = 1, 0), 12, "an age over the count");
    assert_eq!(relay_with(|run| (run.ages[1], run.cycles) = (5, 5), 0), 0);
    assert_eq!(relay_with(|run| (run.ages[1], run.cycles) = (6, 5), 0), 12);
    assert_eq!(relay_with(|run| (run.ages[2], run.cycles) = (1, 5), 0), 12, "an unused age");
    assert_eq!(relay_with(|run| run.variables[0] = 1, 0), 12, "an unused variable");
    assert_eq!(relay_with(|run| run.position = 0, 0), 12);
    assert_eq!(relay_with(|run| run.position = 3, 0), 0, "n + 1, where time passes");
    assert_eq!(relay_with(|run| run.position = 4, 0), 12);
    assert_eq!(relay_with(|run| run.events = 1, 0), 12, "events present at position 1");
    assert_eq!(relay_with(|run| (run.position, run.events) = (2, 1), 0), 0);
    assert_eq!(relay_with(|run| run.cycles = 1_000_001, 0), 12);
    assert_eq!(relay_with(|run| (run.position, run.cycles) = (2, 1_000_000), 0), 12);
    assert_eq!(relay_with(|run| (run.position, run.cycles) = (3, 999_999), 0), 0);
}

#[test]
fn thirteen_fourteen_and_their_order() {
    assert_eq!(relay_with(|run| run.position = 2, 1), 13);
    assert_eq!(relay_with(|run| run.position = 3, 1 << 31), 13);
    assert_eq!(relay_with(|run| run.cycles = 1_000_000, 0), 14);
    assert_eq!(relay_with(|run| run.cycles = 1_000_000, 1), 14, "events at position 1 are no 13");
    assert_eq!(relay_with(|run| run.cycles = 999_999, 1), 0);
    assert_eq!(relay_with(|run| (run.position, run.cycles) = (2, 1_000_000), 1), 12, "12 before 13");
    assert_eq!(relay_with(|run| (run.events, run.cycles) = (1, 1_000_000), 1), 12, "12 before 14");
}

#[test]
fn twelve_for_clocks() {
    // Clock 0 is an after-clock of 3 ticks, clock 1 an every-clock of 2.
    let table = twin(&ChartSet::read(&winch()).unwrap());
    let with = |clock: usize, value: u16| {
        let mut run = automata::start(&table).unwrap();
        run.clocks[clock] = value;
        automata::turn(&table, &run, 0).err().unwrap_or(0)
    };
    assert_eq!((with(0, 3), with(0, 4)), (0, 12), "ticks is an after-clock's top");
    assert_eq!((with(1, 2), with(1, 3)), (0, 12), "ticks is an every-clock's top");
    assert_eq!((with(2, 0), with(2, 1), with(383, 1)), (0, 12, 12), "unused clocks");
}

#[test]
fn the_last_cycle_is_done_and_no_more() {
    let set = ChartSet::read(&relay()).unwrap();
    let mut run = ChartsRun { cycles: 999_998, ..set.start() };
    assert_eq!(set.play(&mut run, &[0; 5]), Ok(2));
    assert_eq!((run.cycles, run.position), (1_000_000, 1));
    assert_eq!(set.play(&mut run, &[0; 5]), Err(14));
    assert_eq!(set.play(&mut run, &[]), Ok(0));
}

#[test]
fn play_stops_before_the_cycle_that_faults() {
    let bytes = simulator::chart_sets::guarded_division();
    let set = ChartSet::read(&bytes).unwrap();
    let mut run = set.start();
    assert_eq!(charts::play(&bytes, &run, &[0, 1, 1, 0, 1]).map(|(played, _)| played), Ok(3));
    assert_eq!(set.play(&mut run, &[0, 1, 1, 0, 1]), Ok(3));
    assert_eq!(run.cycles, 3);
    assert_eq!(set.play(&mut run, &[0]), Err(16));
    assert_eq!(set.play(&mut run, &[1, 0]), Ok(1));
}

#[test]
fn corrupted_chart_runs_are_refused_by_twelve() {
    let mut random = Random::new(1);
    for corruption in CHARTS_CORRUPTIONS {
        let mut applied = 0;
        while applied < 25 {
            let bytes = any_valid_set(&mut random);
            let set = ChartSet::read(&bytes).unwrap();
            let calls = random.below(12);
            let mut run = reached_charts(&mut random, &set, calls);
            assert!(set.possible(&run), "a reached run is possible");
            if (corruption.apply)(&mut random, &set, &mut run) {
                let kept = run;
                assert_eq!(set.turn(&mut run, 0), Err(12), "{}", corruption.clause);
                assert_eq!(set.cycle(&mut run, 1), Err(12), "{}", corruption.clause);
                assert_eq!(run, kept);
                applied += 1;
            }
        }
    }
}

#[test]
fn corrupted_automata_runs_are_refused_by_twelve() {
    let mut random = Random::new(2);
    for corruption in AUTOMATA_CORRUPTIONS {
        let mut applied = 0;
        while applied < 25 {
            let table = AutomataTable::read(&any_table(&mut random)).unwrap();
            let calls = random.below(12);
            let mut run = reached_automata(&mut random, &table, calls);
            assert!(table.possible(&run), "a reached run is possible");
            if (corruption.apply)(&mut random, &table, &mut run) {
                let kept = run;
                assert_eq!(table.turn(&mut run, 0), Err(12), "{}", corruption.clause);
                assert_eq!(table.cycle(&mut run, 1), Err(12), "{}", corruption.clause);
                assert_eq!(run, kept);
                applied += 1;
            }
        }
    }
}

#[test]
fn late_runs_reach_fourteen_and_wild_runs_twelve() {
    let mut random = Random::new(3);
    let (mut done, mut fourteen, mut twelve) = (0, 0, 0);
    for _ in 0..300 {
        let set = ChartSet::read(&any_valid_set(&mut random)).unwrap();
        let mut run = late_charts(&mut random, &set, 6);
        assert!(set.possible(&run));
        match set.cycle(&mut run, 0) {
            Ok(()) => done += 1,
            Err(14) => fourteen += 1,
            Err(number) => assert!((15..=17).contains(&number)),
        }
        twelve += usize::from(set.turn(&mut wild_charts(&mut random), 0) == Err(12));
        let table = AutomataTable::read(&any_table(&mut random)).unwrap();
        let run = late_automata(&mut random, &table, 6);
        assert!(table.possible(&run));
        twelve += usize::from(table.turn(&mut wild_automata(&mut random), 0) == Err(12));
    }
    assert!(done > 50 && fourteen > 20 && twelve > 500, "{done} {fourteen} {twelve}");
}

#[test]
fn aged_runs_are_possible() {
    let mut random = Random::new(4);
    for _ in 0..300 {
        let set = ChartSet::read(&any_valid_set(&mut random)).unwrap();
        assert!(set.possible(&aged_charts(&mut random, &set, 6)));
        let table = AutomataTable::read(&any_table(&mut random)).unwrap();
        assert!(table.possible(&aged_automata(&mut random, &table, 6)));
    }
}

#[test]
fn a_refused_file_comes_before_the_run() {
    let run = ChartsRun::ZERO;
    assert_eq!(charts::turn(&zero_watch()[..20], &run, 1), Err(1));
    assert_eq!(charts::cycle(&[], &run, 1), Err(3));
    assert_eq!(automata::turn(&[0; 16], &AutomataRun::ZERO, 1), Err(11));
    assert_eq!(charts::turn(&zero_watch(), &run, 1), Err(12));
    assert_eq!((Answer::Taken(9).code(), Answer::Idle.code(), Answer::Time.code()), (9, 65_534, 65_535));
}
