//! Leading paths back.

use simulator::automata::AutomataTable;
use simulator::chart_sets::{relay, smallest, zero_watch};
use simulator::charts::ChartSet;
use simulator::generate::buffers::{lengths, words, FILL_WORD};
use simulator::generate::calls::{events_of_set, mask};
use simulator::generate::paths::{broken, walk, whole_run, BREAKS};
use simulator::generate::sets::{any_valid_set, valid_set, Size};
use simulator::path_back::{path_back, rows_of};
use simulator::translation::twin;
use simulator::Machine;
use simulator::{Answer, Random};

const TIME: u16 = 65_535;

#[test]
fn zero_watch_path() {
    // The edges of the five cycles; the last is the idle edge of state 1.
    let path = [0, TIME, 2, TIME, 1, TIME, 3, TIME, 5, TIME];
    let mut rows = [FILL_WORD; 14];
    assert_eq!(path_back(&zero_watch(), &path, &mut rows), Ok(4));
    assert_eq!(rows[..12], [0, 0, 0, 1, 0, 2, 2, 0, 1, 3, 0, 3]);
    assert_eq!(rows[12..], [FILL_WORD; 2], "rows beyond are kept");
}

#[test]
fn a_path_may_stop_anywhere() {
    let path = [0, 3, TIME, 1, 4, TIME];
    for (steps, rows) in [(0, 0), (1, 1), (2, 2), (3, 2), (4, 3), (5, 4), (6, 4)] {
        assert_eq!(path_back(&relay(), &path[..steps], &mut [0; 12]), Ok(rows), "{steps} steps");
    }
}

#[test]
fn twenty_and_twenty_one() {
    let back = |path: &[u16], words: usize| path_back(&zero_watch(), path, &mut vec![FILL_WORD; words]);
    assert_eq!(back(&[7], 9), Err(20), "no such edge");
    assert_eq!(back(&[TIME], 9), Err(20), "time before its turn");
    assert_eq!(back(&[0, 5], 9), Err(20), "an edge where time is due");
    assert_eq!(back(&[1], 9), Err(20), "an edge that leaves another location");
    assert_eq!(back(&[4, TIME, 4, TIME, 0], 9), Ok(1), "idle edges count as steps, whatever their literals");
    assert_eq!(back(&[0, TIME, 4], 9), Err(20), "the idle edge of a location that was left");
    assert_eq!(back(&[0, TIME, 2], 6), Ok(2));
    assert_eq!(back(&[0, TIME, 2], 5), Err(21), "five words hold one row");
    assert_eq!(back(&[0], 2), Err(21));
    assert_eq!(back(&[4], 0), Ok(0));
    assert_eq!(back(&[0, TIME, 2, 3], 0), Err(20), "20 before 21");
    assert_eq!(path_back(&[], &[7], &mut []), Err(3), "the set's refusal first");
}

#[test]
fn refusals_keep_the_rows() {
    let mut rows = [FILL_WORD; 5];
    assert_eq!(path_back(&zero_watch(), &[0, TIME, 2], &mut rows), Err(21));
    assert_eq!(path_back(&zero_watch(), &[0, TIME, 3], &mut rows), Err(20));
    assert_eq!(rows, [FILL_WORD; 5]);
}

#[test]
fn a_path_ends_with_the_millionth_cycle() {
    let mut random = Random::new(1);
    let set = ChartSet::read(&smallest()).unwrap();
    let whole = whole_run(&mut random, &set, false);
    assert_eq!(whole.len(), 2_000_000);
    let rows = rows_of(&set, &whole).expect("a million cycles are a run's");
    assert_eq!(rows, rows_of(&set, &whole[..1]).unwrap(), "after its first step the path idles");
    for _ in 0..3 {
        let over = whole_run(&mut random, &set, true);
        assert_eq!(over.len(), 2_000_001);
        assert_eq!(rows_of(&set, &over), Err(20));
    }
}

#[test]
fn the_path_of_a_twins_run_leads_back_to_the_transitions_taken() {
    let mut random = Random::new(2);
    let (mut rows_led_back, mut longest) = (0, 0);
    for round in 0..600 {
        let bytes = any_valid_set(&mut random);
        let set = ChartSet::read(&bytes).unwrap();
        let table = AutomataTable::read(&twin(&set)).unwrap();
        let (mut charts, mut automata) = (set.start(), table.start());
        let known = events_of_set(&set);
        let (mut path, mut expected) = (Vec::new(), Vec::new());
        for _ in 0..60 {
            let events = if charts.position == 1 { mask(&mut random, known) } else { 0 };
            let (cycle, chart) = (charts.cycles, charts.position - 1);
            let answer = set.turn(&mut charts, events);
            match table.turn(&mut automata, events) {
                Ok(Answer::Taken(edge)) => path.push(edge),
                Ok(_) => path.push(TIME),
                Err(_) => break,
            }
            if let Ok(Answer::Taken(transition)) = answer {
                expected.extend([cycle, chart, u32::from(transition)]);
            }
        }
        let mut rows = words(expected.len() + 3);
        assert_eq!(path_back(&bytes, &path, &mut rows), Ok(expected.len() / 3), "round {round}");
        assert_eq!(rows[..expected.len()], expected, "round {round}");
        assert_eq!(rows[expected.len()..], [FILL_WORD; 3]);
        rows_led_back += expected.len() / 3;
        longest = longest.max(path.len());
    }
    assert!(rows_led_back > 2_000 && longest == 60, "{rows_led_back} rows, longest path {longest}");
}

#[test]
fn walks_lead_back_and_need_their_rows() {
    let mut random = Random::new(3);
    let (mut fitting, mut short) = (0, 0);
    for _ in 0..400 {
        let bytes = any_valid_set(&mut random);
        let set = ChartSet::read(&bytes).unwrap();
        let steps = random.below(60);
        let path = walk(&mut random, &set, steps);
        let expected = rows_of(&set, &path).expect("a walk keeps the rules").concat();
        for length in lengths(&mut random, expected.len()) {
            let mut rows = words(length);
            let found = path_back(&bytes, &path, &mut rows);
            if length / 3 >= expected.len() / 3 {
                assert_eq!(found, Ok(expected.len() / 3));
                assert_eq!(rows[..expected.len()], expected);
                fitting += 1;
            } else {
                assert_eq!(found, Err(21));
                assert!(rows.iter().all(|word| *word == FILL_WORD));
                short += 1;
            }
        }
    }
    assert!(fitting > 300 && short > 300);
}

#[test]
fn broken_paths_are_refused() {
    let mut random = Random::new(4);
    for clause in BREAKS {
        let (mut refused, mut kept) = (0, 0);
        for _ in 0..200 {
            let set = ChartSet::read(&valid_set(&mut random, Size::Middling)).unwrap();
            let steps = random.below(30);
            let Some(path) = broken(&mut random, &set, steps, clause) else {
                continue;
            };
            match rows_of(&set, &path) {
                Err(number) => {
                    assert_eq!(number, 20);
                    refused += 1;
                }
                Ok(_) => kept += 1,
            }
        }
        assert!(refused > 40, "{clause}: {refused}");
        assert!(kept == 0 || clause == "any number", "{clause}: {kept} kept the rules");
    }
}
