//! Writes calls of the programs `check_file`, `lead_back`, `list`, `replay_twin` and `translate`: of each its arguments, its files, standard
//! input, and what the program is to print and to write, with what its message on standard error starts with, what that says of
//! a file of the wrong kind, and the exit status. The first argument is the folder that gets a folder for each program, and in that one for each call. Written are
//! the stored calls; with a second argument, so many generated ones of each kind of file.

use simulator::assemble::*;
use simulator::chart_sets;
use simulator::files::READ_AT_ONCE as LONG;
use simulator::generate::calls::{events_of_table, mask};
use simulator::generate::longest_twins::{longest, most_resets};
use simulator::generate::{set_damage, sets, table_damage, tables};
use simulator::listing::listing;
use simulator::operators::*;
use simulator::path_back::rows_of;
use simulator::records::{most_bytes, AUTOMATA_LIMITS, CHART_LIMITS};
use simulator::refusals::{self, Refusal};
use simulator::replay::replay_twin;
use simulator::translation::{translate, twin};
use simulator::{automata, charts, Answer, AutomataTable, ChartSet, Machine, Random};
use std::path::Path;
use std::{env, fs, io};

/// The most bytes of a set.
const LARGEST: usize = most_bytes(&CHART_LIMITS);
/// The most bytes of a twin.
const LARGEST_TWIN: usize = most_bytes(&AUTOMATA_LIMITS);
/// Time, in a path.
const TIME: u16 = 65_535;
/// Where the zero-watch set has its first action, and its twin its first update.
const ACTION: usize = 16 * 16;
const UPDATE: usize = 28 * 16;

/// A name; the file, or none; the path, or standard input.
type Call = (String, Option<Vec<u8>>, Vec<u8>);

/// What is printed, what is written to a file, what the message starts with, the record that it tells, and the status.
struct Expected {
    printed: Vec<u8>,
    written: Option<Vec<u8>>,
    message: String,
    record: Option<usize>,
    status: u8,
}

/// What a program wants its first file to be.
enum Wanted {
    Set,
    Table,
    Either,
}

/// A program: its name, the words that it is called with, what it wants its first file to be, the names of that and of its
/// path, and what it does.
struct Program {
    name: &'static str,
    words: &'static [&'static str],
    wanted: Wanted,
    file: &'static str,
    input: &'static str,
    answer: fn(&[u8], &[u8]) -> Expected,
}

const PROGRAMS: [Program; 5] = [
    Program {
        name: "check_file",
        words: &["file.bin"],
        wanted: Wanted::Either,
        file: "file.bin",
        input: "input.bin",
        answer: checked,
    },
    Program {
        name: "lead_back",
        words: &["set.bin", "path.bin"],
        wanted: Wanted::Set,
        file: "set.bin",
        input: "path.bin",
        answer: led_back,
    },
    Program {
        name: "list",
        words: &["file.bin"],
        wanted: Wanted::Either,
        file: "file.bin",
        input: "input.bin",
        answer: listed,
    },
    Program {
        name: "replay_twin",
        words: &["twin.bin"],
        wanted: Wanted::Table,
        file: "twin.bin",
        input: "input.bin",
        answer: twin_replayed,
    },
    Program {
        name: "translate",
        words: &["set.bin", "twin.bin"],
        wanted: Wanted::Set,
        file: "set.bin",
        input: "input.bin",
        answer: translated,
    },
];

impl Expected {
    fn printed(printed: String) -> Self {
        Expected {
            printed: printed.into_bytes(),
            written: None,
            message: String::new(),
            record: None,
            status: 0,
        }
    }

    fn refused(number: Refusal) -> Self {
        Expected {
            printed: Vec::new(),
            written: None,
            message: format!("refusal {number}"),
            record: None,
            status: 1,
        }
    }

    fn unread(what: &str) -> Self {
        Expected { printed: Vec::new(), written: None, message: what.into(), record: None, status: 2 }
    }
}

fn path(numbers: &[u16]) -> Vec<u8> {
    numbers.iter().flat_map(|number| number.to_le_bytes()).collect()
}

/// The path that the twin of a set takes in whole cycles, one for each mask.
fn taken(set: &[u8], masks: &[u32]) -> Vec<u16> {
    let table = AutomataTable::read(&twin(&ChartSet::read(set).expect("an accepted set"))).expect("a twin");
    let mut run = table.start();
    let mut numbers = Vec::new();
    for mask in masks {
        for turn in 0..=table.automata() {
            let events = if turn == 0 { *mask } else { 0 };
            numbers.push(match table.turn(&mut run, events).expect("a turn without a fault") {
                Answer::Taken(edge) => edge,
                Answer::Idle => unreachable!("a twin's idle edge is taken by number"),
                Answer::Time => TIME,
            });
        }
    }
    numbers
}

/// The zero-watch set whose transition 1 has the other's priority.
fn equal_priorities() -> Vec<u8> {
    let mut set = chart_sets::zero_watch();
    set[5 * 16 + 1] = 2;
    set
}

/// Charts up to a length: too many, in order.
fn charts_of(len: usize) -> Vec<u8> {
    chart(0).into_iter().cycle().take(len).collect()
}

/// More than the programs read at once, with an unknown kind at the end.
fn long_unordered() -> Vec<u8> {
    let mut set = charts_of(LONG + 32);
    set[LONG + 16] = 7;
    set
}

fn with_rest(mut bytes: Vec<u8>, rest: &[u8]) -> Vec<u8> {
    bytes.extend_from_slice(rest);
    bytes
}

/// The zero-watch set with one byte changed.
fn damaged(at: usize, byte: u8) -> Vec<u8> {
    let mut set = chart_sets::zero_watch();
    set[at] = byte;
    set
}

/// Text, which is neither a set nor a table.
fn text(len: usize) -> Vec<u8> {
    b"neither a chart set nor a table ".iter().copied().cycle().take(len).collect()
}

/// The same calls for every program, with an input that each takes.
fn common(input: &[u8]) -> Vec<Call> {
    vec![
        call("zero_watch", chart_sets::zero_watch(), input),
        (String::from("no_file"), None, input.to_vec()),
        call("empty_set", Vec::new(), input),
        call("refused_set", equal_priorities(), input),
        call("oversized_set", charts_of(LARGEST + 16), input),
        call("text", text(64), input),
        call("text_of_odd_length", text(45), input),
        call("zeros", vec![0; 32], input),
    ]
}

fn call(name: &str, file: Vec<u8>, input: &[u8]) -> Call {
    (String::from(name), Some(file), input.to_vec())
}

/// The twin of an accepted set.
fn twin_of(set: &[u8]) -> Vec<u8> {
    twin(&ChartSet::read(set).expect("an accepted set"))
}

/// The zero-watch set's twin with one byte changed.
fn damaged_twin(at: usize, byte: u8) -> Vec<u8> {
    let mut table = twin_of(&chart_sets::zero_watch());
    table[at] = byte;
    table
}

fn masks(list: &[u32]) -> Vec<u8> {
    list.iter().flat_map(|mask| mask.to_le_bytes()).collect()
}

/// Longer than what the programs read at once.
fn long_table() -> Vec<u8> {
    [33].into_iter().chain([0; 15]).cycle().take(LONG + 5).collect()
}

fn check_calls() -> Vec<Call> {
    let mut calls = common(&[]);
    calls.extend(
        [
            ("smallest", chart_sets::smallest()),
            ("winch", chart_sets::winch()),
            ("relay", chart_sets::relay()),
            ("odd_length", with_rest(chart_sets::zero_watch(), &[0])),
            ("unordered", damaged(0, 7)),
            ("stray_byte", damaged(15, 1)),
            ("code", damaged(4 * 16 + 1, 17)),
            ("named_nothing", damaged(2, 3)),
            ("guards_in_sequence", chart_sets::guards_in_sequence()),
            ("stray_byte_of_an_action", damaged(ACTION + 10, 1)),
            ("guard_named_nothing", damaged(ACTION + 8, 8)),
            ("guard_is_a_number", damaged(ACTION + 8, 1)),
            ("counts_while_waiting", chart_sets::counts_while_waiting()),
            ("waiting_times_differ", chart_sets::two_waiting(200, 201)),
            ("waiting_half_a_tick", chart_sets::two_waiting(50, 200)),
            ("waiting_no_time", chart_sets::two_waiting(200, 0)),
            ("zero_ticks", chart_sets::one_after(49)),
            ("half_a_tick", chart_sets::one_after(50)),
            ("past_half_a_tick", chart_sets::one_after(51)),
            ("long_set", charts_of(LONG)),
            ("long_odd", charts_of(LONG + 5)),
            ("long_unordered", long_unordered()),
            ("zero_watch_twin", twin_of(&chart_sets::zero_watch())),
            ("relay_twin", twin_of(&chart_sets::relay())),
            ("winch_twin", twin_of(&chart_sets::winch())),
            ("table_odd_length", with_rest(twin_of(&chart_sets::zero_watch()), &[33])),
            ("table_unordered", damaged_twin(16, 33 + 9)),
            ("table_stray_byte", damaged_twin(15, 1)),
            ("table_code", damaged_twin(4 * 16 + 6, 2)),
            ("table_named_nothing", damaged_twin(2, 3)),
            ("guards_in_sequence_twin", twin_of(&chart_sets::guards_in_sequence())),
            ("table_stray_byte_of_an_update", damaged_twin(UPDATE + 10, 1)),
            ("table_guard_named_nothing", damaged_twin(UPDATE + 8, 8)),
            ("table_guard_is_a_number", damaged_twin(UPDATE + 8, 1)),
            ("long_table", long_table()),
            ("long_text", text(LONG + 64)),
        ]
        .map(|(name, file)| call(name, file, &[])),
    );
    calls
}

fn path_calls() -> Vec<Call> {
    let watched = taken(&chart_sets::zero_watch(), &[0, 1, 1, 2, 0]);
    let mut calls = common(&path(&watched));
    let relay = taken(&chart_sets::relay(), &[0, 1, 1, 64, 32, 33, 0]);
    calls.extend(
        [
            ("empty_path", Vec::new()),
            ("within_a_cycle", path(&watched[..7])),
            ("odd_path", with_rest(path(&watched), &[0])),
            ("single_byte", vec![0]),
            ("no_edge", path(&[0, TIME, 7])),
            ("time_first", path(&[TIME])),
            ("two_edges", path(&[0, 2])),
            ("elsewhere", path(&[0, TIME, 3])),
        ]
        .map(|(name, path)| call(name, chart_sets::zero_watch(), &path)),
    );
    calls.push(call("relay", chart_sets::relay(), &path(&relay)));
    let waiting = chart_sets::counts_while_waiting();
    let counted = taken(&waiting, &[0, 0, 0, 0, 0, 1, 0, 0, 0, 1, 0, 0]);
    calls.push(call("waiting", waiting.clone(), &path(&counted)));
    // Its due edge is 3 and the other 4; no literal is read.
    calls.push(call("waiting_at_any_age", waiting.clone(), &path(&[0, TIME, 3, TIME, 3, TIME, 4, TIME, 1])));
    calls.push(call("waiting_no_edge", waiting, &path(&[0, TIME, 5])));
    calls.push(call("a_table", twin_of(&chart_sets::zero_watch()), &path(&watched)));
    calls.push(call("broken_and_refused", equal_priorities(), &path(&[9])));
    calls
}

/// One expression with every operator.
fn every_operator() -> Vec<u8> {
    let nodes = [
        constant(1),
        constant(-2),
        operation(EQUAL, &[0, 1]),
        variable_value(0),
        constant(i32::MAX),
        operation(LESS, &[3, 4]),
        operation(OR, &[2, 5]),
        constant(0),
        constant(32_767),
        operation(AT_MOST, &[7, 8]),
        operation(AND, &[6, 9]),
        operation(NOT, &[10]),
        variable_value(0),
        constant(10),
        operation(SUM, &[12, 13]),
        constant(4),
        operation(PRODUCT, &[14, 15]),
        constant(-1),
        operation(DIFFERENCE, &[16, 17]),
        constant(3),
        operation(QUOTIENT, &[18, 19]),
        constant(i32::MIN),
        operation(REMAINDER, &[20, 21]),
        constant(-32_768),
        operation(CHOICE, &[11, 22, 23]),
    ];
    chart_sets::one_expression(i16::MIN, i16::MAX, -1, &nodes)
}

fn list_calls() -> Vec<Call> {
    let mut calls = vec![(String::from("no_file"), None, Vec::new())];
    for (name, set) in chart_sets::all() {
        let name = name.replace(' ', "_");
        calls.push(call(&format!("{name}_twin"), twin_of(&set), &[]));
        calls.push(call(&name, set, &[]));
    }
    calls.extend(
        [
            ("every_operator", every_operator()),
            ("every_operator_twin", twin_of(&every_operator())),
            ("empty_set", Vec::new()),
            ("refused_set", equal_priorities()),
            ("oversized_set", charts_of(LARGEST + 16)),
            ("text", text(64)),
            ("zeros", vec![0; 32]),
            ("unordered", damaged(0, 7)),
            ("stray_byte", damaged(15, 1)),
            ("code", damaged(4 * 16 + 1, 17)),
            ("table_code", damaged_twin(4 * 16 + 6, 2)),
            ("table_named_nothing", damaged_twin(2, 3)),
        ]
        .map(|(name, file)| call(name, file, &[])),
    );
    calls
}

fn twin_calls() -> Vec<Call> {
    let watched = masks(&[0, 1, 1, 2, 0]);
    let mut calls = vec![
        (String::from("no_file"), None, watched.clone()),
        call("no_masks", twin_of(&chart_sets::zero_watch()), &[]),
        call("partial_mask", twin_of(&chart_sets::zero_watch()), &with_rest(watched.clone(), &[1, 0, 0])),
        call("a_set", chart_sets::zero_watch(), &watched),
        call("empty_table", Vec::new(), &watched),
        call("text", text(64), &watched),
        call("zeros", vec![0; 32], &watched),
        call("long_set", charts_of(LONG + 5), &watched),
        call("refused_table", damaged_twin(2, 3), &watched),
        call("none_open", damaged_twin(4 * 16 + 2, 1), &watched),
        call("two_open", damaged_twin(16 * 16 + 1, 1), &watched),
        call("due_late", twin_of(&chart_sets::held_back()), &masks(&[0, 0, 0, 0, 1, 0, 0, 2, 0, 0])),
        call("halves_round", twin_of(&chart_sets::halves()), &masks(&[0; 25])),
        call(
            "waiting_round",
            twin_of(&chart_sets::counts_while_waiting()),
            &masks(&[0, 0, 0, 0, 0, 1, 0, 0, 0, 1, 0, 0]),
        ),
        call("waiting_fault", twin_of(&chart_sets::sees_while_waiting()), &masks(&[0; 20])),
        call("guards_round", twin_of(&chart_sets::guards_in_sequence()), &masks(&[0, 1, 1, 2, 1, 0])),
    ];
    calls.extend(chart_sets::all().into_iter().map(|(name, set)| {
        call(&name.replace(' ', "_"), twin_of(&set), &masks(&[0, 1, 3, 64, 32, 33, 2, 1, 0]))
    }));
    calls
}

fn translate_calls() -> Vec<Call> {
    let mut calls = common(&[]);
    calls.extend(
        [
            ("smallest", chart_sets::smallest()),
            ("winch", chart_sets::winch()),
            ("relay", chart_sets::relay()),
            ("action_order", chart_sets::action_order()),
            ("guards_in_sequence", chart_sets::guards_in_sequence()),
            ("counts_while_waiting", chart_sets::counts_while_waiting()),
            ("raises_while_waiting", chart_sets::raises_while_waiting()),
            ("waiting_times_differ", chart_sets::two_waiting(200, 201)),
            ("halves", chart_sets::halves()),
            ("a_table", twin_of(&chart_sets::zero_watch())),
            ("long_table", long_table()),
            ("long_text", text(LONG + 64)),
        ]
        .map(|(name, set)| call(name, set, &[])),
    );
    calls
}

/// How many records there are of each kind, from the first on, with their words.
fn counts(file: &[u8], first: u8, words: &[&str]) -> String {
    let count = |kind: u8| file.chunks(16).filter(|record| record[0] == kind).count();
    let counted: Vec<String> =
        (first..).zip(words).map(|(kind, word)| format!("{} {word}", count(kind))).collect();
    format!("{}\n", counted.join(", "))
}

fn table_counts(table: &[u8]) -> String {
    let words =
        ["automata", "locations", "edges", "literals", "clocks", "variables", "nodes", "updates", "resets"];
    counts(table, 33, &words)
}

/// A table by its first record's kind, else a set.
fn is_table(file: &[u8]) -> bool {
    file.first().is_some_and(|kind| *kind >= 33)
}

/// What is said behind the refusal of a file that is not of the kind that is wanted, by its first byte.
fn note(file: &[u8], wanted: &Wanted) -> &'static str {
    match (file.first(), wanted) {
        (None, _) => "the file is empty",
        (Some(33..=41), Wanted::Set) => "an automata table: replay-twin plays it, check and list read it",
        (Some(1..=6), Wanted::Table) => "a chart set: replay plays it, translate makes its twin",
        (Some(1..=6 | 33..=41), _) => "",
        _ => "neither a chart set nor an automata table",
    }
}

/// What is printed of a file that is accepted; else its refusal.
fn where_accepted(file: &[u8], text: fn(&[u8]) -> String) -> Expected {
    let read =
        if is_table(file) { AutomataTable::read(file).map(|_| ()) } else { ChartSet::read(file).map(|_| ()) };
    match read {
        Ok(()) => Expected::printed(text(file)),
        Err(number) => Expected { record: broken_record(file, number), ..Expected::refused(number) },
    }
}

fn checked(file: &[u8], _: &[u8]) -> Expected {
    where_accepted(file, |file| {
        let words = ["charts", "states", "transitions", "variables", "nodes", "actions"];
        let counts = if is_table(file) { table_counts(file) } else { counts(file, 1, &words) };
        format!("accepted: {counts}")
    })
}

fn listed(file: &[u8], _: &[u8]) -> Expected {
    where_accepted(file, listing)
}

/// The first whole record that breaks a rule by itself: that of the refusal of a set, and of a table the first of three.
/// A file that is not read whole has none.
fn broken_record(file: &[u8], number: Refusal) -> Option<usize> {
    if file.len() >= LONG {
        return None;
    }
    let breaks = |test: &dyn Fn(&[u8]) -> bool| file.chunks_exact(16).position(test);
    match number {
        refusals::KIND | refusals::STRAY_BYTE | refusals::CODE_OR_RANGE | refusals::ZERO_TICKS => {
            breaks(&|record| charts::applying(record)[number as usize])
        }
        refusals::AUTOMATA_FILE => ["kinds", "stray byte", "code or range"]
            .iter()
            .find_map(|clause| breaks(&|record| automata::broken_clauses(record).contains(clause))),
        _ => None,
    }
}

fn led_back(set: &[u8], input: &[u8]) -> Expected {
    if input.len() % 2 != 0 {
        return Expected::unread("path.bin");
    }
    let numbers: Vec<u16> = input.chunks(2).map(|pair| u16::from_le_bytes([pair[0], pair[1]])).collect();
    match ChartSet::read(set).and_then(|set| rows_of(&set, &numbers)) {
        Ok(rows) => {
            let lines: String = rows
                .iter()
                .map(|[cycle, chart, transition]| format!("{cycle} {chart} {transition}\n"))
                .collect();
            Expected::printed(lines)
        }
        Err(number) => Expected::refused(number),
    }
}

fn translated(set: &[u8], _: &[u8]) -> Expected {
    let mut out = vec![0; LARGEST_TWIN];
    match translate(set, &mut out) {
        Ok(len) => {
            out.truncate(len);
            let mut expected = Expected::printed(format!("written: {len} bytes, {}", table_counts(&out)));
            expected.written = Some(out);
            expected
        }
        Err(number) => Expected::refused(number),
    }
}

/// Refusals come before a turn, faults in one.
fn twin_replayed(table: &[u8], input: &[u8]) -> Expected {
    let played = replay_twin(table, input);
    let mut expected = Expected::printed(played.lines);
    if let Some(number) = played.refusal {
        let word = if number >= refusals::OUT_OF_RANGE { "fault" } else { "refusal" };
        expected.message = format!("{word} {number}");
        expected.status = 1;
    }
    expected
}

fn write_call(folder: &Path, program: &Program, file: &Option<Vec<u8>>, input: &[u8]) -> io::Result<()> {
    let expected = match file {
        None => Expected::unread(program.file),
        Some(file) => (program.answer)(file, input),
    };
    let note = match file {
        Some(file) if expected.status == 1 => note(file, &program.wanted),
        _ => "",
    };
    fs::create_dir_all(folder)?;
    if !note.is_empty() {
        fs::write(folder.join("expected.note"), format!("{note}\n"))?;
    }
    if let Some(file) = file {
        fs::write(folder.join(program.file), file)?;
    }
    if let Some(written) = expected.written {
        fs::write(folder.join("expected.bin"), written)?;
    }
    fs::write(folder.join(program.input), input)?;
    fs::write(folder.join("args"), program.words.join("\n") + "\n")?;
    if ["check_file", "list"].contains(&program.name) {
        let record = expected.record.map_or(String::new(), |record| record.to_string());
        fs::write(folder.join("expected.record"), record + "\n")?;
    }
    fs::write(folder.join("expected.out"), &expected.printed)?;
    fs::write(folder.join("expected.err"), format!("{}\n", expected.message))?;
    fs::write(folder.join("expected.status"), format!("{}\n", expected.status))
}

/// A file of every kind: an accepted set, a damaged one, an accepted table, a damaged one; whichever there is.
fn any_file(random: &mut Random) -> Option<Vec<u8>> {
    match random.below(4) {
        0 => Some(sets::any_valid_set(random)),
        1 => {
            let set = sets::any_valid_set(random);
            let damage = &set_damage::DAMAGES[random.below(set_damage::DAMAGES.len())];
            set_damage::damage(random, &set, damage).map(|damaged| damaged.bytes)
        }
        2 => Some(tables::any_table(random)),
        _ => {
            let table = tables::any_table(random);
            let damage = &table_damage::DAMAGES[random.below(table_damage::DAMAGES.len())];
            table_damage::damage(random, &table, damage)
        }
    }
}

/// A table that is played, mostly with events that it knows.
fn any_play(random: &mut Random) -> (Vec<u8>, Vec<u8>) {
    let bytes = tables::any_table(random);
    let known = events_of_table(&AutomataTable::read(&bytes).expect("an accepted table"));
    let list: Vec<u32> = (0..20).map(|_| mask(random, known)).collect();
    (bytes, masks(&list))
}

/// A set with the most of each kind, one whose twin has the most edges and resets, and their twins.
fn largest(random: &mut Random) -> [Call; 4] {
    let (set, other) = (longest(random), most_resets(random));
    [
        call("largest_twin", twin_of(&set), &[]),
        call("largest", set, &[]),
        call("most_resets_twin", twin_of(&other), &[]),
        call("most_resets", other, &[]),
    ]
}

fn generated(count: usize) -> [Vec<Call>; 5] {
    let mut random = Random::new(4);
    let mut numbered = |make: &mut dyn FnMut(&mut Random) -> Option<(Vec<u8>, Vec<u8>)>| -> Vec<Call> {
        (0..count)
            .filter_map(|k| {
                make(&mut random).map(|(file, input)| call(&format!("generated_{k}"), file, &input))
            })
            .collect()
    };
    let mut any = |random: &mut Random| any_file(random).map(|file| (file, Vec::new()));
    let checked = numbered(&mut any);
    let played = numbered(&mut |random| Some(any_play(random)));
    let mut translated = numbered(&mut any);
    let mut listed = numbered(&mut any);
    listed.extend(largest(&mut random));
    translated.extend(largest(&mut random));
    [checked, Vec::new(), listed, played, translated]
}

fn main() -> io::Result<()> {
    let target = env::args().nth(1).expect("the folder to write to");
    let calls = match env::args().nth(2) {
        None => [check_calls(), path_calls(), list_calls(), twin_calls(), translate_calls()],
        Some(count) => generated(count.parse().expect("how many")),
    };
    for (program, calls) in PROGRAMS.iter().zip(calls) {
        for (name, file, input) in calls {
            write_call(&Path::new(&target).join(program.name).join(name), program, &file, &input)?;
        }
    }
    Ok(())
}
