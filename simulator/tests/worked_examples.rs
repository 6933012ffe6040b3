//! The worked examples of the scope paper, as the change requests done so far leave them.

use simulator::assemble::{constant, file, operation};
use simulator::chart_sets::{halves, held_back, one_after, one_assignment, one_expression, zero_watch};
use simulator::charts::ChartSet;
use simulator::operators::{LESS, QUOTIENT, REMAINDER};
use simulator::records::*;
use simulator::replay::replay;
use simulator::timing::ticks;
use simulator::translation::{translate, twin};
use simulator::Machine;
use simulator::{automata, charts, Answer, AutomataTable};

fn masks(list: &[u32]) -> Vec<u8> {
    list.iter().flat_map(|mask| mask.to_le_bytes()).collect()
}

/// The zero-watch set byte by byte, so that the bytes do not hang on the assembling functions.
#[rustfmt::skip]
const ZERO_WATCH: [[u8; 16]; 18] = [
    [1, 0, 0, 0, 0, 0, 0, 0, 0, 0, 0, 0, 0, 0, 0, 0],
    [2, 0, 0, 0, 0, 0, 0, 0, 0, 0, 0, 0, 0, 0, 0, 0],
    [2, 0, 0, 0, 0, 0, 0, 0, 0, 0, 0, 0, 0, 0, 0, 0],
    [2, 0, 0, 0, 0, 0, 0, 0, 0, 0, 0, 0, 0, 0, 0, 0],
    [3, 1, 0, 0, 1, 0, 0, 0, 0, 0, 0, 0, 0xFF, 0xFF, 0, 0],
    [3, 1, 1, 0, 2, 0, 0, 0, 0, 0, 0, 0, 2, 0, 0, 0],
    [3, 2, 1, 0, 1, 0, 1, 0, 0, 0, 0, 0, 0xFF, 0xFF, 0, 0],
    [3, 1, 2, 0, 1, 0, 1, 1, 0, 0, 0, 0, 0xFF, 0xFF, 0, 0],
    [4, 0, 0x9C, 0xFF, 100, 0, 1, 0, 0, 0, 0, 0, 0, 0, 0, 0],
    [5, 2, 0, 0, 0, 0, 0, 0, 0, 0, 0, 0, 0, 0, 0, 0],
    [5, 1, 0, 0, 0, 0, 0, 0, 0, 0, 0, 0, 0, 0, 0, 0],
    [5, 17, 0, 0, 1, 0, 0, 0, 0, 0, 0, 0, 0, 0, 0, 0],
    [5, 2, 0, 0, 0, 0, 0, 0, 0, 0, 0, 0, 0, 0, 0, 0],
    [5, 1, 0, 0, 0, 0, 0, 0, 2, 0, 0, 0, 0, 0, 0, 0],
    [5, 4, 3, 0, 4, 0, 0, 0, 0, 0, 0, 0, 0, 0, 0, 0],
    [5, 1, 0, 0, 0, 0, 0, 0, 1, 0, 0, 0, 0, 0, 0, 0],
    [6, 3, 2, 0, 1, 0, 5, 0, 0, 0, 0, 0, 0, 0, 0, 0],
    [6, 3, 3, 0, 1, 0, 6, 0, 0, 0, 0, 0, 0, 0, 0, 0],
];

#[test]
fn zero_watch_has_eighteen_records() {
    assert_eq!(zero_watch(), ZERO_WATCH.concat());
    assert_eq!(charts::check(&ZERO_WATCH.concat()), 0);
}

#[test]
fn zero_watch_replays_five_lines() {
    let replay = replay(&zero_watch(), &masks(&[0, 1, 1, 2, 0]));
    assert_eq!(replay.lines, "0 0 0 1 1\n1 0 2 1 -1\n2 0 1 2 -1\n3 0 3 1 1\n4 0 - 1 1\n");
    assert_eq!(replay.refusal, None);
}

#[test]
fn a_partial_mask_ends_the_replay() {
    let mut input = masks(&[0, 1]);
    input.extend([1, 0, 0]);
    let replay = replay(&zero_watch(), &input);
    assert_eq!(replay.lines, "0 0 0 1 1\n1 0 2 1 -1\n");
    assert_eq!(replay.refusal, None);
}

/// The twin, byte by byte as the translation's rules give it.
#[rustfmt::skip]
const ZERO_WATCH_TWIN: [[u8; 16]; 30] = [
    [33, 0, 0, 0, 0, 0, 0, 0, 0, 0, 0, 0, 0, 0, 0, 0],
    [34, 0, 0, 0, 0, 0, 0, 0, 0, 0, 0, 0, 0, 0, 0, 0],
    [34, 0, 0, 0, 0, 0, 0, 0, 0, 0, 0, 0, 0, 0, 0, 0],
    [34, 0, 0, 0, 0, 0, 0, 0, 0, 0, 0, 0, 0, 0, 0, 0],
    // Edges of transitions 0 to 3, then the idle edges of states 0 to 2.
    [35, 0, 0, 0, 1, 0, 0, 0, 0, 0, 0, 0, 0, 0, 0, 0],
    [35, 0, 1, 0, 2, 0, 0, 0, 0, 0, 0, 0, 0, 0, 0, 0],
    [35, 0, 1, 0, 1, 0, 0, 0, 0, 0, 0, 0, 0, 0, 0, 0],
    [35, 0, 2, 0, 1, 0, 0, 0, 0, 0, 0, 0, 0, 0, 0, 0],
    [35, 0, 0, 0, 0, 0, 1, 0, 0, 0, 0, 0, 0, 0, 0, 0],
    [35, 0, 1, 0, 1, 0, 1, 0, 0, 0, 0, 0, 0, 0, 0, 0],
    [35, 0, 2, 0, 2, 0, 1, 0, 0, 0, 0, 0, 0, 0, 0, 0],
    // Literals: edge 2 and the idle edges read the must-nots first.
    [36, 1, 0, 0, 0, 0, 0, 0, 0xFF, 0xFF, 0, 0, 0, 0, 0, 0],
    [36, 1, 1, 0, 0, 0, 0, 0, 2, 0, 0, 0, 0, 0, 0, 0],
    [36, 2, 2, 0, 0, 0, 0, 0, 2, 0, 0, 0, 0, 0, 0, 0],
    [36, 1, 2, 0, 1, 0, 0, 0, 0xFF, 0xFF, 0, 0, 0, 0, 0, 0],
    [36, 1, 3, 0, 1, 1, 0, 0, 0xFF, 0xFF, 0, 0, 0, 0, 0, 0],
    [36, 2, 4, 0, 0, 0, 0, 0, 0xFF, 0xFF, 0, 0, 0, 0, 0, 0],
    [36, 2, 5, 0, 0, 0, 0, 0, 2, 0, 0, 0, 0, 0, 0, 0],
    [36, 2, 5, 0, 1, 0, 0, 0, 0xFF, 0xFF, 0, 0, 0, 0, 0, 0],
    [36, 2, 6, 0, 1, 1, 0, 0, 0xFF, 0xFF, 0, 0, 0, 0, 0, 0],
    [38, 0, 0x9C, 0xFF, 100, 0, 1, 0, 0, 0, 0, 0, 0, 0, 0, 0],
    [39, 2, 0, 0, 0, 0, 0, 0, 0, 0, 0, 0, 0, 0, 0, 0],
    [39, 1, 0, 0, 0, 0, 0, 0, 0, 0, 0, 0, 0, 0, 0, 0],
    [39, 17, 0, 0, 1, 0, 0, 0, 0, 0, 0, 0, 0, 0, 0, 0],
    [39, 2, 0, 0, 0, 0, 0, 0, 0, 0, 0, 0, 0, 0, 0, 0],
    [39, 1, 0, 0, 0, 0, 0, 0, 2, 0, 0, 0, 0, 0, 0, 0],
    [39, 4, 3, 0, 4, 0, 0, 0, 0, 0, 0, 0, 0, 0, 0, 0],
    [39, 1, 0, 0, 0, 0, 0, 0, 1, 0, 0, 0, 0, 0, 0, 0],
    [40, 1, 2, 0, 0, 0, 5, 0, 0, 0, 0, 0, 0, 0, 0, 0],
    [40, 1, 3, 0, 0, 0, 6, 0, 0, 0, 0, 0, 0, 0, 0, 0],
];

#[test]
fn zero_watch_twin_has_480_bytes() {
    let mut out = [0xA5; 500];
    assert_eq!(translate(&zero_watch(), &mut out), Ok(480));
    assert_eq!(out[..480], ZERO_WATCH_TWIN.concat());
    assert_eq!(out[480..], [0xA5; 20], "bytes beyond are kept");
    let mut exact = [0; 480];
    assert_eq!(translate(&zero_watch(), &mut exact), Ok(480));
    let count = |kind| whole_records(&exact).iter().filter(|record| record[0] == kind).count();
    assert_eq!((count(EDGE), count(LITERAL), count(UPDATE)), (7, 9, 2));
    assert_eq!(automata::check(&exact), 0);
}

#[test]
fn zero_watch_twin_is_refused_in_479_bytes() {
    let mut short = [0xA5; 479];
    assert_eq!(translate(&zero_watch(), &mut short), Err(10));
    assert_eq!(short, [0xA5; 479], "everything lent keeps its contents");
    assert_eq!(translate(&zero_watch(), &mut []), Err(10));
}

#[test]
fn zero_watch_twin_takes_the_edges_of_the_transitions() {
    let table = AutomataTable::read(&ZERO_WATCH_TWIN.concat()).unwrap();
    let mut run = table.start();
    let mut taken = Vec::new();
    for events in [0, 1, 1, 2, 0] {
        taken.push(table.turn(&mut run, events).unwrap());
        assert_eq!(table.turn(&mut run, 0), Ok(Answer::Time));
    }
    assert_eq!(taken, [0, 2, 1, 3, 5].map(Answer::Taken));
}

#[test]
fn fd_ff_is_minus_three() {
    let mut record = [0; 16];
    record[2] = 0xFD;
    record[3] = 0xFF;
    assert_eq!(read_i16(&record, 2), -3);
    assert_eq!(read_u16(&record, 2), 65_533);
    write_i16(&mut record, 6, -3);
    assert_eq!(record[6..8], [0xFD, 0xFF]);
    write_i32(&mut record, 8, -3);
    assert_eq!(record[8..12], [0xFD, 0xFF, 0xFF, 0xFF]);
    assert_eq!(read_i32(&record, 8), -3);
    // Read as 65,533, a lowest of -3 would lie above the start.
    assert_eq!(charts::check(&one_assignment(-3, 5, 0, 0)), 0);
}

#[rustfmt::skip]
const ROUNDED: [(u32, u32); 21] = [
    (0, 0), (49, 0), (50, 0), (51, 1),
    (149, 1), (150, 2), (151, 2),
    (249, 2), (250, 2), (251, 3),
    (349, 3), (350, 4), (351, 4),
    (450, 4), (550, 6),
    (3_599_949, 35_999), (3_599_950, 36_000), (3_599_951, 36_000), (3_600_000, 36_000),
    // Beyond the range too: the last half, and the last number.
    (4_294_967_250, 42_949_672), (4_294_967_295, 42_949_673),
];

#[test]
fn milliseconds_round_to_the_nearest_tick_halves_to_the_even() {
    for (milliseconds, expected) in ROUNDED {
        assert_eq!(ticks(milliseconds), expected, "{milliseconds} ms");
    }
    assert_eq!(charts::check(&one_after(49)), 9);
    assert_eq!(charts::check(&one_after(50)), 9);
    assert_eq!(charts::check(&one_after(51)), 0);
}

/// Less than half a tick away there is one tick at most; half a tick away there are two, one of them even.
#[test]
fn no_tick_is_nearer_and_of_two_as_near_the_even_one_is_given() {
    for milliseconds in 1..=3_600_000 {
        let given = ticks(milliseconds);
        let distance = (100 * given).abs_diff(milliseconds);
        assert!(distance <= 50, "{milliseconds} ms as {given} ticks");
        assert!(distance < 50 || given.is_multiple_of(2), "{milliseconds} ms as {given} ticks");
    }
}

/// Plays one cycle a mask; the transition of chart 0 in each, none where it idles.
fn transitions(set: &[u8], list: &[u32]) -> Vec<Option<u16>> {
    let set = ChartSet::read(set).unwrap();
    let mut run = set.start();
    let play = |events: &u32| {
        let answer = set.turn(&mut run, *events).unwrap();
        while set.turn(&mut run, 0).unwrap() != Answer::Time {}
        match answer {
            Answer::Taken(transition) => Some(transition),
            _ => None,
        }
    };
    list.iter().map(play).collect()
}

#[test]
fn entered_in_cycle_four_after_three_fires_in_cycle_seven() {
    let taken = transitions(&one_after(300), &[0, 0, 0, 0, 1, 0, 0, 0, 0, 0]);
    let mut expected = vec![None; 10];
    expected[0] = Some(0);
    expected[4] = Some(1);
    expected[7] = Some(2);
    assert_eq!(taken, expected);
    // With a guard that is false at age 3 and true at age 4 it fires in cycle 8.
    let taken = transitions(&held_back(), &[0, 0, 0, 0, 1, 0, 0, 2, 0, 0]);
    expected[7] = None;
    expected[8] = Some(2);
    assert_eq!(taken, expected);
    // 249 and 250 ms are 2 ticks, 251 is 3, and 350 is 4.
    for (milliseconds, cycle) in [(249, 6), (250, 6), (251, 7), (350, 8)] {
        let taken = transitions(&one_after(milliseconds), &[0, 0, 0, 0, 1, 0, 0, 0, 0, 0]);
        let fires = taken.iter().position(|transition| *transition == Some(2));
        assert_eq!(fires, Some(cycle), "{milliseconds} ms");
    }
}

/// The lines of 25 cycles in which a transition is taken, as cycle, transition, state after.
fn moves(set: &[u8], chart: &str) -> Vec<[u16; 3]> {
    let lines = replay(set, &masks(&[0; 25])).lines;
    let words = lines.lines().map(|line| line.split(' ').collect::<Vec<&str>>());
    let taken = words.filter(|words| words[1] == chart && words[2] != "-");
    taken.map(|words| [0, 2, 3].map(|at| words[at].parse().unwrap())).collect()
}

#[test]
fn halves_move_on_after_two_and_four_ticks() {
    // 2, 2, 4 and 4 ticks make a round of 12 cycles.
    let after = [[0, 0, 1], [2, 1, 2], [4, 2, 3], [8, 3, 4], [12, 4, 1]];
    let again = [[14, 1, 2], [16, 2, 3], [20, 3, 4], [24, 4, 1]];
    let round = [&after[..], &again[..]].concat();
    assert_eq!(moves(&halves(), "0"), round);
    // Chart 1 does the same by the next five transitions.
    let every: Vec<[u16; 3]> = round.iter().map(|[cycle, by, to]| [*cycle, by + 5, to + 5]).collect();
    assert_eq!(moves(&halves(), "1"), every);
    // Chart 2: two times fall due together, and the higher priority is taken.
    let first = [[0, 10, 11], [2, 11, 12], [6, 13, 11], [8, 11, 12], [12, 13, 11]];
    let then = [[14, 11, 12], [18, 13, 11], [20, 11, 12], [24, 13, 11]];
    assert_eq!(moves(&halves(), "2"), [&first[..], &then[..]].concat());
}

/// The set with whole ticks as times, which all roundings leave alone, worked out of the whole ticks below each half.
fn halves_as(rounded: impl Fn(u32) -> u32) -> Vec<u8> {
    let mut records = whole_records(&halves()).to_vec();
    for record in &mut records {
        if let Some(milliseconds) = time_of(record) {
            write_u32(record, 8, 100 * rounded(milliseconds / 100));
        }
    }
    file(records)
}

#[test]
fn the_replay_of_halves_tells_every_other_rounding() {
    let lines = |set: &[u8]| replay(set, &masks(&[0; 25])).lines;
    let even = lines(&halves());
    assert_eq!(lines(&halves_as(|below| below + below % 2)), even);
    assert_ne!(lines(&halves_as(|below| below + 1)), even, "up");
    assert_ne!(lines(&halves_as(|below| below)), even, "down");
    assert_ne!(lines(&halves_as(|below| below + 1 - below % 2)), even, "to the odd tick");
}

#[test]
fn the_clocks_of_the_twin_of_halves_have_two_and_four_ticks() {
    let table = AutomataTable::read(&twin(&ChartSet::read(&halves()).unwrap())).unwrap();
    let ticks: Vec<u16> = table.clocks.iter().map(|clock| clock.ticks).collect();
    assert_eq!(ticks, [2, 2, 4, 4, 2, 2, 4, 4, 2, 2, 4, 4]);
}

#[test]
fn minus_three_quotient_two_is_minus_one() {
    let by_two = |operator| [constant(-3), constant(2), operation(operator, &[0, 1])];
    let set = one_expression(-100, 100, 7, &by_two(QUOTIENT));
    assert_eq!(charts::cycle(&set, &charts::start(&set).unwrap(), 0).unwrap().variables[0], -1);
    let set = one_expression(-100, 100, 7, &by_two(REMAINDER));
    assert_eq!(charts::cycle(&set, &charts::start(&set).unwrap(), 0).unwrap().variables[0], -1);
    assert_eq!(charts::check(&one_expression(-100, 100, 7, &by_two(LESS))), 8, "a truth is not assigned");
}

#[test]
fn assigning_minus_two_below_a_lowest_of_minus_one_faults() {
    let set = one_assignment(-1, 1, 0, -2);
    let run = charts::start(&set).unwrap();
    assert_eq!(charts::turn(&set, &run, 0), Err(17));
    assert_eq!(charts::cycle(&set, &run, 0), Err(17));
    let set = one_assignment(-1, 1, 0, -1);
    assert_eq!(
        charts::turn(&set, &run, 0).map(|(answer, next)| (answer, next.variables[0])),
        Ok((Answer::Taken(0), -1))
    );
}
