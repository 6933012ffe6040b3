//! The translation, byte for byte: sets of all sizes, buffers exact, a byte short, longer and empty, and refused sets.

use comparison::halves::half;
use comparison::met::Met;
use comparison::monuvaleck::{automata_check, charts_translate};
use comparison::sides::damaged;
use simulator::chart_sets;
use simulator::generate::buffers::{bytes, lengths, FILL};
use simulator::generate::longest_twins::{longest, most_resets, LENGTH};
use simulator::generate::set_damage::NUMBERS;
use simulator::generate::sets::{any_valid_set, valid_set, Size};
use simulator::records::*;
use simulator::translation::twin;
use simulator::{interface, ChartSet, Random};

/// The answer of both sides. Bytes beyond the twin are kept, and on a refusal all of them.
fn compare(set: &[u8], lent: usize) -> i32 {
    let (mut mine, mut right) = (bytes(lent), bytes(lent));
    let answer = charts_translate(set, &mut mine);
    let expected = interface::charts_translate(set, &mut right);
    assert_eq!(answer, expected, "for {lent} bytes of {set:?}");
    assert!(mine == right, "other bytes, for {lent} bytes of {set:?}");
    let written = usize::try_from(answer).unwrap_or(0);
    assert!(mine[written..].iter().all(|byte| *byte == FILL));
    answer
}

/// A set into buffers of several lengths around that of its twin, which is accepted.
fn translate(random: &mut Random, set: &[u8], met: &mut Met) {
    let twin = twin(&ChartSet::read(set).expect("an accepted set"));
    for lent in lengths(random, twin.len()) {
        let answer = compare(set, lent);
        if lent < twin.len() {
            assert_eq!(answer, -10);
        } else {
            assert_eq!(usize::try_from(answer), Ok(twin.len()));
        }
        met.add(match lent {
            0 => "an empty buffer",
            _ if lent + 1 == twin.len() => "a byte short",
            _ if lent < twin.len() => "short",
            _ if lent == twin.len() => "exact",
            _ => "longer",
        });
    }
    let mut out = bytes(twin.len());
    charts_translate(set, &mut out);
    assert!(out == twin);
    assert_eq!(automata_check(&out), 0, "a twin is accepted");
    met.add("sets");
}

#[test]
fn sets_byte_for_byte() {
    let mut random = Random::new(61);
    let mut met = Met::default();
    for round in 0..20_000 {
        let set = valid_set(&mut random, if round % 2 == 0 { Size::Tiny } else { Size::Middling });
        translate(&mut random, &set, &mut met);
        whole_records(&set).iter().filter_map(half).for_each(|half| met.add(half));
        for action in whole_records(&set).iter().filter(|record| record[0] == ACTION) {
            let of = if action[4] == ASSIGN { "an assignment" } else { "a raise" };
            met.add(
                deed_guard(action).map_or(format!("{of} without guard"), |_| format!("{of} with a guard")),
            );
            if action[1] == WAITING {
                met.add("a waiting action");
            }
        }
    }
    let rings = [2, 15, 16, 17, 18, 127, 128].map(chart_sets::ring);
    for set in chart_sets::all().into_iter().map(|(_, set)| set).chain(rings) {
        translate(&mut random, &set, &mut met);
    }
    println!("sets translated: {:#?}", met.0);
    met.at_least(20_000, &["sets", "exact", "a byte short", "longer", "an empty buffer"]);
    met.at_least(10_000, &["a half above an even tick", "a half above an odd tick"]);
    met.at_least(10_000, &["an assignment with a guard", "an assignment without guard"]);
    met.at_least(10_000, &["a raise with a guard", "a raise without guard", "a waiting action"]);
}

/// Every exact half in the range of milliseconds, and the times beside it, of a trigger and of waiting actions: refused by 9,
/// or the clock's ticks.
#[test]
fn times_about_every_half() {
    let mut met = Met::default();
    for milliseconds in (0..36_000).flat_map(|tick| (49..=51).map(move |past| 100 * tick + past)) {
        for set in [chart_sets::one_after(milliseconds), chart_sets::two_waiting(milliseconds, milliseconds)]
        {
            met.add(match compare(&set, 1_000) {
                0.. => whole_records(&set).iter().find_map(half).unwrap_or("beside a half"),
                -9 => "9",
                other => panic!("{milliseconds} ms: {other}"),
            });
        }
    }
    println!("times about every half: {:#?}", met.0);
    met.at_least(2 * 17_999, &["a half above an even tick", "a half above an odd tick"]);
    assert_eq!(met.count("9"), 4);
}

fn count(file: &[u8], kind: u8) -> usize {
    whole_records(file).iter().filter(|record| record[0] == kind).count()
}

/// Sets whose twins have as many edges and resets as a table may have.
#[test]
fn most_edges_and_resets() {
    let mut random = Random::new(64);
    for _ in 0..50 {
        let set = most_resets(&mut random);
        translate(&mut random, &set, &mut Met::default());
        let twin = twin(&ChartSet::read(&set).expect("an accepted set"));
        assert_eq!((count(&twin, EDGE), count(&twin, RESET)), (most(EDGE), most(RESET)));
    }
}

/// Sets with the most of each kind, and those with the longest twins.
#[test]
fn largest_sets() {
    let mut random = Random::new(62);
    let mut met = Met::default();
    for round in 0..200 {
        let set = match round % 2 {
            0 => valid_set(&mut random, Size::Largest),
            _ => longest(&mut random),
        };
        for (kind, most) in CHART_LIMITS {
            assert_eq!(count(&set, kind), most, "kind {kind}");
        }
        translate(&mut random, &set, &mut met);
        let length = twin(&ChartSet::read(&set).expect("an accepted set")).len();
        met.add(if length == LENGTH { "long twins" } else { "shorter twins" });
    }
    println!("largest sets translated: {:#?}", met.0);
    met.at_least(100, &["long twins", "shorter twins"]);
}

/// The set's number comes before that of the buffer.
#[test]
fn refused_sets() {
    let mut random = Random::new(63);
    let mut met = Met::default();
    for round in 0..4_500 {
        let set = any_valid_set(&mut random);
        let Some(bad) = damaged(&mut random, &set, round) else {
            continue;
        };
        for lent in [0, 16, 4_000] {
            assert_eq!(compare(&bad.bytes, lent), -i32::try_from(bad.number).expect("small"));
        }
        met.add(format!("file: {}", bad.number));
    }
    for _ in 0..10_000 {
        let noise: Vec<u8> = (0..random.below(100)).map(|_| random.pick(&[0, 0, 1, 2, 3, 4, 5, 6])).collect();
        compare(&noise, 200);
    }
    println!("refused sets: {:#?}", met.0);
    for number in NUMBERS {
        met.at_least(200, &[&format!("file: {number}")]);
    }
}
