//! The trace-back: paths of twins' own runs, walks, broken paths and whole runs, with rows of any length, and refused sets.
//! The answer and all lent words are compared with the simulator's.

use comparison::met::Met;
use comparison::monuvaleck::path_back;
use comparison::sides::damaged;
use simulator::chart_sets::{relay, smallest};
use simulator::generate::buffers::{lengths, words, FILL_WORD};
use simulator::generate::calls::{events_of_set, mask};
use simulator::generate::paths::{broken, walk, whole_run, BREAKS};
use simulator::generate::set_damage::NUMBERS;
use simulator::generate::sets::{any_valid_set, valid_set, Size};
use simulator::translation::{idle_edges, twin};
use simulator::{interface, Answer, AutomataTable, ChartSet, Machine, Random};

const TIME: u16 = 65_535;

/// The answer of both sides; a refusal keeps every word, and words beyond the rows are kept.
fn compare(set: &[u8], path: &[u16], lent: usize) -> i32 {
    let (mut mine, mut right) = (words(lent), words(lent));
    let answer = path_back(set, path, &mut mine);
    let expected = interface::path_back(set, path, &mut right);
    assert!(
        answer == expected && mine == right,
        "{answer}, not {expected}, for {} steps and {lent} words of {set:?}",
        path.len()
    );
    let written = usize::try_from(answer).map_or(0, |rows| 3 * rows);
    assert!(mine[written..].iter().all(|word| *word == FILL_WORD));
    answer
}

fn note(met: &mut Met, answer: i32, lent: usize) {
    met.add("paths");
    met.add(match answer {
        0 => "no rows".to_string(),
        1.. if lent == 3 * answer as usize => "rows that just fit".to_string(),
        1.. => "rows with words beyond".to_string(),
        _ => format!("{}", -answer),
    });
}

/// The path of a run of the twin, up to so many steps or its first fault.
fn path_of_run(random: &mut Random, set: &ChartSet, steps: usize) -> Vec<u16> {
    let table = AutomataTable::read(&twin(set)).expect("a twin is accepted");
    let (mut run, known) = (table.start(), events_of_set(set));
    let mut path = Vec::new();
    for _ in 0..steps {
        let events = if run.position == 1 { mask(random, known) } else { 0 };
        match table.turn(&mut run, events) {
            Ok(Answer::Taken(edge)) => path.push(edge),
            Ok(_) => path.push(TIME),
            Err(_) => break,
        }
    }
    path
}

#[test]
fn paths_that_keep_the_rules() {
    let mut random = Random::new(41);
    let mut met = Met::default();
    for round in 0..3_500 {
        let bytes = any_valid_set(&mut random);
        let set = ChartSet::read(&bytes).expect("an accepted set");
        let steps = random.pick(&[0, 1, 5, 20, 60, 200]);
        let path = match round % 2 {
            0 => path_of_run(&mut random, &set, steps),
            _ => walk(&mut random, &set, steps),
        };
        for edges in idle_edges(&set).iter().filter(|edges| edges.len() > 1) {
            let steps = |edge: u16| path.iter().filter(|step| **step == edge).count();
            *met.0.entry("due edges".to_string()).or_default() += steps(edges.start);
            *met.0.entry("not-due edges".to_string()).or_default() += steps(edges.start + 1);
        }
        let rows = compare(&bytes, &path, 3 * path.len());
        let exact = 3 * usize::try_from(rows).expect("a path that keeps the rules");
        // Also one word short, which is a row short, and one or two words of a further row.
        for lent in lengths(&mut random, exact).into_iter().chain([exact + 1, exact + 2]) {
            let answer = compare(&bytes, &path, lent);
            assert_eq!(answer == -21, lent / 3 < exact / 3);
            note(&mut met, answer, lent);
            if answer == -21 && lent + 1 == exact {
                met.add("short by one word");
            }
            if answer >= 0 && lent % 3 != 0 {
                met.add("a partial row beyond");
            }
        }
    }
    println!("paths that keep the rules: {:#?}", met.0);
    met.at_least(20_000, &["paths"]);
    met.at_least(
        2_000,
        &["21", "no rows", "rows that just fit", "rows with words beyond", "a partial row beyond"],
    );
    met.at_least(1_000, &["short by one word", "due edges", "not-due edges"]);
}

#[test]
fn broken_paths() {
    let mut random = Random::new(42);
    let mut met = Met::default();
    for round in 0..9_000 {
        let size = if round % 300 == 0 { Size::Largest } else { random.pick(&[Size::Tiny, Size::Middling]) };
        let bytes = valid_set(&mut random, size);
        let set = ChartSet::read(&bytes).expect("an accepted set");
        let steps = random.below(30);
        let clause = BREAKS[round % BREAKS.len()];
        let Some(path) = broken(&mut random, &set, steps, clause) else {
            continue;
        };
        let lent = random.pick(&[0, 1, 3, 200]);
        let answer = compare(&bytes, &path, lent);
        if answer == -20 {
            met.add(clause);
            if lent < 3 {
                met.add("20 without room");
            }
        }
        note(&mut met, answer, lent);
        // The same path up to the broken step keeps the rules.
        if clause != "any number" {
            assert_eq!(answer, -20, "{clause}");
            let kept = (0..path.len())
                .rev()
                .find(|end| interface::path_back(&bytes, &path[..*end], &mut words(3 * end)) >= 0);
            assert!(compare(&bytes, &path[..kept.expect("no steps at least")], 200) >= 0);
        }
    }
    println!("broken paths: {:#?}", met.0);
    met.at_least(500, &BREAKS);
    met.at_least(1_000, &["20 without room"]);
}

/// As many cycles as a run has, and a step past them; and as many rows as there can be.
#[test]
fn whole_runs() {
    let mut random = Random::new(43);
    for bytes in [smallest(), relay()] {
        let set = ChartSet::read(&bytes).expect("an accepted set");
        let whole = whole_run(&mut random, &set, false);
        assert!(compare(&bytes, &whole, 24) >= 0);
        for _ in 0..2 {
            let over = whole_run(&mut random, &set, true);
            assert_eq!(compare(&bytes, &over, 24), -20);
        }
    }
    let bytes = relay();
    let set = ChartSet::read(&bytes).expect("an accepted set");
    let many = walk(&mut random, &set, 3_000_000);
    let rows = compare(&bytes, &many, 3 * many.len());
    assert!(rows > 100_000, "{rows} rows");
    assert_eq!(compare(&bytes, &many, 3 * rows as usize - 1), -21);
    println!("{rows} rows of 3,000,000 steps");
}

/// The set's number comes first.
#[test]
fn refused_sets() {
    let mut random = Random::new(44);
    let mut met = Met::default();
    for round in 0..2_700 {
        let set = any_valid_set(&mut random);
        let Some(bad) = damaged(&mut random, &set, round) else {
            continue;
        };
        let read = ChartSet::read(&set).expect("an accepted set");
        let mut path = walk(&mut random, &read, 12);
        if random.chance(1, 2) {
            path.push(u16::MAX - 1);
        }
        let answer = compare(&bad.bytes, &path, random.pick(&[0, 2, 60]));
        assert_eq!(answer, -i32::try_from(bad.number).expect("small"));
        met.add(format!("file: {}", bad.number));
    }
    println!("refused sets: {:#?}", met.0);
    for number in NUMBERS {
        met.at_least(100, &[&format!("file: {number}")]);
    }
}
