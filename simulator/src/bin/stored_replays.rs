//! Writes the stored replays: of each a set, masks, and what the replay program is to print, with the number that
//! its message on standard error starts with, what that says of a file that is no set, and the exit status. The first argument is the folder that gets a
//! folder for each.

use simulator::assemble::*;
use simulator::chart_sets::{self, SetParts};
use simulator::deeds::Deed;
use simulator::files::READ_AT_ONCE as LONG;
use simulator::operators::*;
use simulator::records::{most_bytes, CHART_LIMITS, ENTRY, EXIT, ON_TRANSITION};
use simulator::replay::replay;
use simulator::translation::twin;
use simulator::variables::Variable;
use simulator::ChartSet;
use std::path::Path;
use std::{env, fs, io};

/// The most bytes of a set.
const LARGEST: usize = most_bytes(&CHART_LIMITS);

/// A name; the set, or no file; the masks.
type Case = (&'static str, Option<Vec<u8>>, Vec<u8>);

fn masks(list: &[u32]) -> Vec<u8> {
    list.iter().flat_map(|mask| mask.to_le_bytes()).collect()
}

/// Three charts: chart 0 raises event 5 on leaving state 1 and event 7 on entering it; chart 1 counts event 5 and
/// raises event 6; chart 2 follows 6 and 7, the latter with the lower priority.
fn three_charts() -> Vec<u8> {
    SetParts {
        charts: vec![chart(0), chart(2), chart(4)],
        states: vec![state(0), state(0), state(1), state(1), state(2), state(2), state(2)],
        transitions: vec![
            transition(1, 0, 1),
            on_event(transition(3, 1, 1), 0),
            transition(1, 2, 3),
            on_event(transition(16, 3, 3), 5),
            transition(1, 4, 5),
            on_event(transition(1, 5, 6), 6),
            on_event(transition(2, 5, 5), 7),
            on_event(transition(1, 6, 5), 31),
        ],
        variables: vec![
            Variable { lowest: -3, highest: 3, start: -3 },
            Variable { lowest: -32_768, highest: 32_767, start: -32_768 },
        ],
        nodes: vec![variable_value(0), constant(1), operation(SUM, &[0, 1]), constant(32_767)],
        actions: vec![
            action(ENTRY, 1, Deed::Raise { event: 7 }),
            action(EXIT, 1, Deed::Raise { event: 5 }),
            action(ON_TRANSITION, 3, Deed::Assign { variable: 0, node: 2 }),
            action(ON_TRANSITION, 3, Deed::Raise { event: 6 }),
            action(ON_TRANSITION, 7, Deed::Assign { variable: 1, node: 3 }),
        ],
    }
    .bytes()
}

/// Chart 0 counts each cycle; chart 1 divides 6 by 3 minus the count, so the fourth cycle faults in its second turn.
fn fault_in_cycle() -> Vec<u8> {
    SetParts {
        charts: vec![chart(0), chart(2)],
        states: vec![state(0), state(0), state(1), state(1)],
        transitions: vec![transition(1, 0, 1), transition(1, 1, 1), transition(1, 2, 3), transition(1, 3, 3)],
        variables: vec![
            Variable { lowest: 0, highest: 100, start: 0 },
            Variable { lowest: -100, highest: 100, start: 0 },
        ],
        nodes: vec![
            variable_value(0),
            constant(1),
            operation(SUM, &[0, 1]),
            constant(6),
            constant(3),
            variable_value(0),
            operation(DIFFERENCE, &[4, 5]),
            operation(QUOTIENT, &[3, 6]),
        ],
        actions: vec![
            action(ON_TRANSITION, 1, Deed::Assign { variable: 0, node: 2 }),
            action(ON_TRANSITION, 3, Deed::Assign { variable: 1, node: 7 }),
        ],
    }
    .bytes()
}

/// Eight charts that loop without trigger, 64 variables of the longest numbers.
fn widest() -> Vec<u8> {
    let transitions =
        (0..8u16).flat_map(|c| [transition(1, 2 * c, 2 * c + 1), transition(16, 2 * c + 1, 2 * c + 1)]);
    SetParts {
        charts: (0..8u16).map(|c| chart(2 * c)).collect(),
        states: (0..8u8).flat_map(|c| [state(c), state(c)]).collect(),
        transitions: transitions.collect(),
        variables: vec![Variable { lowest: -32_768, highest: -10_000, start: -32_768 }; 64],
        ..SetParts::default()
    }
    .bytes()
}

/// The zero-watch set whose transition 1 has the other's priority.
fn equal_priorities() -> Vec<u8> {
    let mut set = chart_sets::zero_watch();
    set[5 * 16 + 1] = 2;
    set
}

/// The zero-watch set whose first action has the guard 65,534.
fn guard_named_nothing() -> Vec<u8> {
    let mut set = chart_sets::zero_watch();
    set[16 * 16 + 8..16 * 16 + 10].fill(0xFF);
    set
}

/// Charts up to a length: too many, in order.
fn charts_of(len: usize) -> Vec<u8> {
    chart(0).into_iter().cycle().take(len).collect()
}

/// More than the program reads at once, with an unknown kind at the end.
fn long_unordered() -> Vec<u8> {
    let mut set = charts_of(LONG + 32);
    set[LONG + 16] = 7;
    set
}

fn with_rest(mut input: Vec<u8>, rest: &[u8]) -> Vec<u8> {
    input.extend_from_slice(rest);
    input
}

fn cases() -> Vec<Case> {
    let mut cases: Vec<Case> =
        sets().into_iter().map(|(name, set, input)| (name, Some(set), input)).collect();
    cases.push(("no_set", None, masks(&[0, 1])));
    cases
}

fn sets() -> Vec<(&'static str, Vec<u8>, Vec<u8>)> {
    let watched = masks(&[0, 1, 1, 2, 0]);
    let events: Vec<u32> =
        (0..40).map(|k| [0, 1, 0x8000_0001, 32, 0xFFFF_FFFF, 0x8000_0000, 0][k % 7]).collect();
    vec![
        ("zero_watch", chart_sets::zero_watch(), watched.clone()),
        ("raised_events", chart_sets::relay(), masks(&[0, 1, 1, 64, 32, 33, 0])),
        ("three_charts", three_charts(), masks(&events)),
        ("timers", chart_sets::winch(), masks(&[0, 0, 0, 0, 0, 0, 0, 0, 2, 0, 1, 0, 0, 0, 0, 0, 0, 3, 0])),
        ("due_late", chart_sets::held_back(), masks(&[0, 0, 0, 0, 1, 0, 0, 2, 0, 0])),
        // Two rounds of charts 0 and 1.
        ("halves", chart_sets::halves(), masks(&[0; 25])),
        ("guards_in_sequence", chart_sets::guards_in_sequence(), masks(&[0, 1, 1, 2, 1, 0])),
        ("guard_that_faults", chart_sets::guard_that_faults(), masks(&[0, 1, 0, 1, 1, 0])),
        ("guard_named_nothing", guard_named_nothing(), watched.clone()),
        // Entered anew in cycle 5, and in cycle 9, where an action would be due.
        (
            "counts_while_waiting",
            chart_sets::counts_while_waiting(),
            masks(&[0, 0, 0, 0, 0, 1, 0, 0, 0, 1, 0, 0]),
        ),
        ("sees_while_waiting", chart_sets::sees_while_waiting(), masks(&[0; 20])),
        ("raises_while_waiting", chart_sets::raises_while_waiting(), masks(&[0, 0, 0, 32, 0, 0, 32, 0])),
        ("waiting_times_differ", chart_sets::two_waiting(200, 201), watched.clone()),
        ("waiting_zero_ticks", chart_sets::two_waiting(49, 200), watched.clone()),
        ("widest_lines", widest(), masks(&[0, 0, 0])),
        ("fault_in_cycle", fault_in_cycle(), masks(&[0; 9])),
        ("zero_divisor", chart_sets::guarded_division(), masks(&[0, 1, 1, 0, 1])),
        ("out_of_bounds", chart_sets::one_assignment(-1, 1, 0, -2), masks(&[0, 0])),
        ("out_of_range", chart_sets::one_expression(0, 1, 0, &out_of_range()), masks(&[0, 0])),
        ("partial_mask", chart_sets::zero_watch(), with_rest(watched.clone(), &[1, 0, 0])),
        ("no_masks", chart_sets::zero_watch(), Vec::new()),
        ("empty_set", Vec::new(), watched.clone()),
        ("odd_length", with_rest(chart_sets::zero_watch(), &[0]), watched.clone()),
        ("refused_set", equal_priorities(), watched.clone()),
        ("half_a_tick", chart_sets::one_after(50), watched.clone()),
        ("oversized_set", charts_of(LARGEST + 16), watched.clone()),
        ("oversized_odd", charts_of(LARGEST + 1), watched.clone()),
        ("long_set", charts_of(LONG), watched.clone()),
        ("long_odd", charts_of(LONG + 5), watched.clone()),
        ("long_unordered", long_unordered(), watched.clone()),
        (
            "a_table",
            twin(&ChartSet::read(&chart_sets::zero_watch()).expect("an accepted set")),
            watched.clone(),
        ),
        ("text", b"neither a chart set nor a table\n".to_vec(), watched),
    ]
}

/// 2,147,483,647 + 1.
fn out_of_range() -> Vec<simulator::expressions::Node> {
    vec![constant(i32::MAX), constant(1), operation(SUM, &[0, 1])]
}

/// What the message on standard error starts with: the refusal's number, or the file's name.
fn expected(set: &Option<Vec<u8>>, input: &[u8]) -> (String, String) {
    match set {
        None => (String::new(), String::from("set.bin\n")),
        Some(set) => {
            let played = replay(set, input);
            (played.lines, played.refusal.map_or(String::new(), |number| format!("{number}\n")))
        }
    }
}

/// What is said behind the refusal of a file that is no set, by its first byte.
fn note(set: &Option<Vec<u8>>) -> &'static str {
    match set.as_ref().map(|set| set.first()) {
        None | Some(Some(1..=6)) => "",
        Some(None) => "the file is empty",
        Some(Some(33..=41)) => "an automata table: replay-twin plays it, check and list read it",
        Some(Some(_)) => "neither a chart set nor an automata table",
    }
}

/// 1 for a refusal or fault, 2 where there is nothing to read.
fn expected_status(set: &Option<Vec<u8>>, message: &str) -> &'static str {
    match set {
        None => "2\n",
        Some(_) if message.is_empty() => "0\n",
        Some(_) => "1\n",
    }
}

fn write_case(folder: &Path, set: &Option<Vec<u8>>, input: &[u8]) -> io::Result<()> {
    let (lines, message) = expected(set, input);
    fs::create_dir_all(folder)?;
    if let Some(set) = set {
        fs::write(folder.join("set.bin"), set)?;
    }
    fs::write(folder.join("masks.bin"), input)?;
    fs::write(folder.join("expected.out"), lines)?;
    if !note(set).is_empty() {
        fs::write(folder.join("expected.note"), format!("{}\n", note(set)))?;
    }
    fs::write(folder.join("expected.status"), expected_status(set, &message))?;
    fs::write(folder.join("expected.err"), message)
}

fn main() -> io::Result<()> {
    let target = env::args().nth(1).expect("the folder to write to");
    for (name, set, input) in cases() {
        write_case(&Path::new(&target).join(name), &set, &input)?;
    }
    Ok(())
}
