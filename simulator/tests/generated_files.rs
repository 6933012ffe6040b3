//! The generators: valid files are accepted, damaged ones refused as meant, and everything that they
//! are made for comes up.

use simulator::automata::{self, AutomataTable};
use simulator::charts::{self, ChartSet, Trigger};
use simulator::expressions::Evaluator;
use simulator::generate::buffers::{bytes, lengths, FILL};
use simulator::generate::idling_sets::idling_set;
use simulator::generate::longest_twins::{longest, most_resets, LENGTH};
use simulator::generate::sets::{any_valid_set, valid_set, Size};
use simulator::generate::waiting_sets::waiting_set;
use simulator::generate::{set_damage, table_damage, tables};
use simulator::operators::{QUOTIENT, REMAINDER};
use simulator::records::*;
use simulator::translation::{translate, twin};
use simulator::{Answer, Machine, Random};
use std::collections::BTreeMap;

const SIZES: [Size; 3] = [Size::Tiny, Size::Middling, Size::Largest];

fn count(bytes: &[u8], kind: u8) -> usize {
    whole_records(bytes).iter().filter(|record| record[0] == kind).count()
}

#[test]
fn valid_sets_and_their_twins_are_accepted() {
    let mut random = Random::new(1);
    for round in 0..2_000 {
        let size = if round % 50 == 0 { Size::Largest } else { SIZES[round % 2] };
        let bytes = valid_set(&mut random, size);
        assert_eq!(charts::check(&bytes), 0, "round {round}");
        let set = ChartSet::read(&bytes).unwrap();
        assert_eq!(automata::check(&twin(&set)), 0, "round {round}");
    }
}

#[test]
fn the_largest_sets_have_the_most_of_each_kind() {
    let mut random = Random::new(2);
    let mut longest_row = 0;
    for _ in 0..20 {
        let bytes = valid_set(&mut random, Size::Largest);
        for (kind, most) in CHART_LIMITS {
            assert_eq!(count(&bytes, kind), most, "kind {kind}");
        }
        let set = ChartSet::read(&bytes).unwrap();
        longest_row = longest_row.max(set.rows.iter().map(Vec::len).max().unwrap());
    }
    assert_eq!(longest_row, 16);
}

#[test]
fn the_longest_twins_come_of_full_sets_and_have_their_length() {
    let mut random = Random::new(13);
    for _ in 0..5 {
        let bytes = longest(&mut random);
        for (kind, most) in CHART_LIMITS {
            assert_eq!(count(&bytes, kind), most, "kind {kind}");
        }
        assert_eq!(twin(&ChartSet::read(&bytes).unwrap()).len(), LENGTH);
    }
}

#[test]
fn a_set_reaches_the_limits_of_edges_and_resets() {
    let mut random = Random::new(14);
    for _ in 0..5 {
        let bytes = most_resets(&mut random);
        let table = twin(&ChartSet::read(&bytes).unwrap());
        assert_eq!((count(&bytes, CHART), automata::check(&table)), (1, 0));
        for (kind, most) in &CHART_LIMITS[1..] {
            assert_eq!(count(&bytes, *kind), *most, "kind {kind}");
        }
        assert_eq!((count(&table, EDGE), count(&table, RESET)), (most(EDGE), most(RESET)));
        assert_eq!((count(&table, LITERAL), count(&table, CLOCK)), (2_929, 383));
    }
}

#[test]
fn sets_have_what_they_are_made_for() {
    let mut random = Random::new(3);
    let mut found: BTreeMap<&str, usize> = BTreeMap::new();
    for _ in 0..300 {
        let bytes = valid_set(&mut random, Size::Middling);
        let set = ChartSet::read(&bytes).unwrap();
        let out_of_order = set.rows.iter().any(|row| row.windows(2).any(|pair| pair[0] > pair[1]));
        let timed = |after: bool| {
            set.transitions.iter().any(|t| {
                matches!(t.trigger, Trigger::Timed(timing, _) if (timing == simulator::timing::Timing::After) == after)
            })
        };
        let has = |kind: u8, fits: &dyn Fn(&Record) -> bool| {
            whole_records(&bytes).iter().any(|record| record[0] == kind && fits(record))
        };
        let both_places = set.entry.iter().any(|d| !d.is_empty()) && set.exit.iter().any(|d| !d.is_empty());
        for (what, seen) in [
            ("priorities out of file order", out_of_order),
            ("after", timed(true)),
            ("every", timed(false)),
            ("several charts", set.charts() > 1),
            ("one chart", set.charts() == 1),
            ("no variables", set.variables.is_empty()),
            ("entry and exit actions", both_places),
            ("a state that is not left", set.rows.iter().any(Vec::is_empty)),
            ("a self-transition", set.transitions.iter().any(|t| t.source == t.target)),
            ("a guarded assignment", has(ACTION, &|r| r[4] == ASSIGN && deed_guard(r).is_some())),
            ("a guarded raise", has(ACTION, &|r| r[4] == RAISE && deed_guard(r).is_some())),
            ("an action without guard", has(ACTION, &|r| deed_guard(r).is_none())),
            ("waiting actions", set.waiting.iter().any(Option::is_some)),
            ("no waiting actions", set.waiting.iter().all(Option::is_none)),
            ("several of one state", set.waiting.iter().flatten().any(|waiting| waiting.deeds.len() > 1)),
            ("a waiting initial state", set.initial.iter().any(|s| set.waiting[usize::from(*s)].is_some())),
        ] {
            *found.entry(what).or_default() += usize::from(seen);
        }
    }
    for (what, times) in found {
        assert!(times >= 5, "{what}: {times} of 300");
    }
}

/// Quiet cycles of sets whose states act while they idle: how often such an action is met, and by a later chart.
#[test]
fn events_raised_while_waiting_are_answered() {
    let mut random = Random::new(15);
    let (mut raised, mut answered) = (0, 0);
    for _ in 0..500 {
        let set = ChartSet::read(&idling_set(&mut random)).unwrap();
        let mut run = set.start();
        let mut waiting = 0;
        for _ in 0..60 {
            let before = run.events;
            match set.turn(&mut run, 0) {
                Ok(Answer::Idle) if run.events != before => {
                    waiting = run.events & !before;
                    raised += 1;
                }
                Ok(Answer::Taken(transition)) => {
                    let trigger = set.transitions[usize::from(transition)].trigger;
                    let by_it = matches!(trigger, Trigger::Event(event) if waiting & 1 << event != 0);
                    answered += usize::from(by_it);
                }
                Ok(_) => waiting = 0,
                Err(_) => break,
            }
        }
    }
    assert!(raised > 300 && answered > 100, "{raised} raised, {answered} answered");
}

type Make = fn(&mut Random) -> Vec<u8>;

#[test]
fn exact_halves_come_often_and_their_neighbours_at_times() {
    let makes: [(&str, usize, Make); 6] = [
        ("tiny", 2_000, |random| valid_set(random, Size::Tiny)),
        ("middling", 400, |random| valid_set(random, Size::Middling)),
        ("largest", 80, |random| valid_set(random, Size::Largest)),
        ("waiting", 3_000, waiting_set),
        ("idling", 1_000, idling_set),
        ("longest", 20, longest),
    ];
    for (what, sets, make) in makes {
        let mut random = Random::new(11);
        let times = |set: Vec<u8>| whole_records(&set).iter().filter_map(time_of).collect::<Vec<u32>>();
        let all: Vec<u32> = (0..sets).flat_map(|_| times(make(&mut random))).collect();
        let percent =
            |past: u32, of: u32| 100 * all.iter().filter(|time| *time % of == past).count() / all.len();
        assert!((25..=35).contains(&percent(50, 100)), "{what}: {} percent halves", percent(50, 100));
        assert!(percent(50, 200) >= 9 && percent(150, 200) >= 9, "{what}: above even and odd ticks");
        assert!(percent(49, 100) >= 5 && percent(51, 100) >= 5, "{what}: just below and above");
    }
}

/// Whether dividend and divisor have unlike signs and something is left: where rounding down is not toward zero.
fn rounds_below(dividend: i32, divisor: i32) -> bool {
    divisor != 0 && (dividend < 0) != (divisor < 0) && dividend.wrapping_rem(divisor) != 0
}

#[test]
fn divisions_that_round_below_zero_come_often() {
    let mut random = Random::new(12);
    let (mut divisions, mut below) = (0, 0);
    for round in 0..1_000 {
        let size = if round % 4 == 0 { Size::Middling } else { Size::Tiny };
        let set = ChartSet::read(&valid_set(&mut random, size)).expect("a valid set");
        let mut run = set.start();
        for _ in 0..12 {
            // A turn that faults leaves the run.
            let _ = set.turn(&mut run, 0);
            let evaluator = Evaluator { nodes: &set.nodes, variables: &run.variables };
            for node in set.nodes.iter().filter(|node| [QUOTIENT, REMAINDER].contains(&node.operator)) {
                let operands = [0, 1].map(|place| evaluator.number(node.operands[place]));
                if let [Ok(dividend), Ok(divisor)] = operands {
                    divisions += 1;
                    below += usize::from(rounds_below(dividend, divisor));
                }
            }
        }
    }
    assert!(below > divisions / 5, "{below} of {divisions}");
}

#[test]
fn damaged_sets_are_refused_by_their_number() {
    let mut random = Random::new(4);
    for damage in set_damage::DAMAGES {
        let mut applied = 0;
        for round in 0..400 {
            // The largest sets now and then, the others in turn.
            let size = if round % 100 == 99 { Size::Largest } else { SIZES[round % 2] };
            let set = valid_set(&mut random, size);
            if let Some(damaged) = set_damage::damage(&mut random, &set, damage) {
                assert_eq!(charts::check(&damaged.bytes), damage.number, "{}", damage.clause);
                applied += 1;
            }
            if applied == 12 {
                break;
            }
        }
        assert!(applied >= 5, "{} could be applied {applied} times only", damage.clause);
    }
}

#[test]
fn twice_damaged_sets_are_refused_by_the_lower_number() {
    let mut random = Random::new(5);
    let mut pairs: BTreeMap<(u32, usize), usize> = BTreeMap::new();
    for _ in 0..4_000 {
        let set = any_valid_set(&mut random);
        if let Some(damaged) = set_damage::damage_twice(&mut random, &set) {
            assert_eq!(charts::check(&damaged.bytes), damaged.number, "{:?}", damaged.clauses);
            assert_eq!(damaged.clauses.len(), 2);
            *pairs.entry((damaged.number, damaged.clauses.len())).or_default() += 1;
        }
    }
    for number in 1..=9 {
        assert!(pairs.contains_key(&(number, 2)), "no pair gave {number}: {pairs:?}");
    }
}

#[test]
fn generated_tables_are_accepted_and_damaged_ones_refused() {
    let mut random = Random::new(6);
    let all: Vec<Vec<u8>> = (0..400).map(|_| tables::any_table(&mut random)).collect();
    for table in &all {
        assert_eq!(automata::check(table), 0);
    }
    for damage in table_damage::DAMAGES {
        let mut applied = 0;
        for at in 0..all.len() {
            let table = &all[(at + random.below(all.len())) % all.len()];
            // Large tables take long to damage; a few of them do.
            if table.len() > 40_000 && !random.chance(1, 10) {
                continue;
            }
            if let Some(damaged) = table_damage::damage(&mut random, table, damage) {
                assert_eq!(automata::check(&damaged), 11, "{}", damage.clause);
                applied += 1;
            }
            if applied == 8 {
                break;
            }
        }
        assert!(applied >= 4, "{} could be applied {applied} times only", damage.clause);
    }
}

#[test]
fn the_largest_table_has_the_most_of_each_kind() {
    let table = tables::hand_made(&mut Random::new(7), &tables::LARGEST);
    assert_eq!(automata::check(&table), 0);
    for (kind, most) in AUTOMATA_LIMITS {
        assert_eq!(count(&table, kind), most, "kind {kind}");
    }
}

#[test]
fn tables_may_have_the_most_of_a_kind_and_no_more() {
    let mut random = Random::new(12);
    for (kind, most) in AUTOMATA_LIMITS {
        let full = tables::filled(&mut random, kind, 0);
        assert_eq!((count(&full, kind), automata::check(&full)), (most, 0), "kind {kind}");
        let over = tables::filled(&mut random, kind, 1);
        assert_eq!((count(&over, kind), automata::check(&over)), (most + 1, 11), "kind {kind}");
        assert_eq!(automata::broken_clauses(&over), ["counts"], "kind {kind}");
    }
}

#[test]
fn tables_have_what_they_are_made_for() {
    let mut random = Random::new(8);
    let mut found: BTreeMap<&str, usize> = BTreeMap::new();
    for _ in 0..200 {
        let bytes = tables::any_table(&mut random);
        let table = AutomataTable::read(&bytes).unwrap();
        let records = whole_records(&bytes);
        let edges_of = |kind: u8| records.iter().filter(move |r| r[0] == kind).map(|r| read_u16(r, 2));
        let unsorted = |kind: u8| !edges_of(kind).is_sorted();
        let mut guards: Vec<u16> = records
            .iter()
            .filter(|r| r[0] == LITERAL)
            .map(|r| read_u16(r, 8))
            .filter(|node| *node != NONE)
            .collect();
        guards.sort_unstable();
        let of_updates = || table.edges.iter().flat_map(|e| &e.updates).filter_map(|update| update.guard);
        let shared = |guard: u16| of_updates().filter(|other| *other == guard).count() > 1;
        for (what, seen) in [
            ("unsorted literals", unsorted(LITERAL)),
            ("unsorted updates", unsorted(UPDATE)),
            ("unsorted resets", unsorted(RESET)),
            ("shared guards", guards.windows(2).any(|pair| pair[0] == pair[1])),
            ("guarded updates", of_updates().count() > 0),
            ("updates that share a guard", of_updates().any(shared)),
            ("an update with a literal's guard", of_updates().any(|guard| guards.contains(&guard))),
            ("idle edge with updates", table.edges.iter().any(|e| e.idle && !e.updates.is_empty())),
            ("idle edge with resets", table.edges.iter().any(|e| e.idle && !e.resets.is_empty())),
        ] {
            *found.entry(what).or_default() += usize::from(seen);
        }
    }
    for (what, times) in found {
        assert!(times >= 5, "{what}: {times} of 200");
    }
}

#[test]
fn lent_buffers_are_written_only_as_far_as_the_twin_goes() {
    let mut random = Random::new(9);
    let (mut fitting, mut short) = (0, 0);
    for _ in 0..200 {
        let set = any_valid_set(&mut random);
        let twin = twin(&ChartSet::read(&set).unwrap());
        for length in lengths(&mut random, twin.len()) {
            let mut out = bytes(length);
            match translate(&set, &mut out) {
                Ok(written) => {
                    fitting += 1;
                    assert!(length >= twin.len() && written == twin.len() && out[..written] == twin);
                    assert!(out[written..].iter().all(|byte| *byte == FILL), "bytes beyond are kept");
                }
                Err(number) => {
                    short += 1;
                    assert!(number == 10 && length < twin.len());
                    assert!(out.iter().all(|byte| *byte == FILL), "a refusal writes nothing");
                }
            }
        }
    }
    assert!(fitting >= 400 && short >= 400);
}

#[test]
fn a_refused_set_is_not_translated() {
    let mut random = Random::new(10);
    let mut numbers = std::collections::BTreeSet::new();
    for round in 0..300 {
        let set = any_valid_set(&mut random);
        let number = set_damage::NUMBERS[round % set_damage::NUMBERS.len()];
        let ways: Vec<_> = set_damage::DAMAGES.iter().filter(|way| way.number == number).collect();
        let damage = random.pick(&ways);
        let Some(damaged) = set_damage::damage(&mut random, &set, damage) else {
            continue;
        };
        let mut out = bytes(random.below(2_000));
        assert_eq!(translate(&damaged.bytes, &mut out), Err(damaged.number));
        assert!(out.iter().all(|byte| *byte == FILL));
        numbers.insert(damaged.number);
    }
    assert_eq!(numbers.into_iter().collect::<Vec<u32>>(), set_damage::NUMBERS);
}
