//! Damaged automata files: every clause of refusal 11.

use super::record_list::shared::{any, byte, range, unnamed, unused};
use super::record_list::{shared, Damage, RecordList};
use crate::assemble::done_if;
use crate::random::Random;
use crate::records::*;

macro_rules! damages {
    ($($clause:literal $apply:expr;)*) => {
        &[$(Damage { number: 11, clause: $clause, apply: $apply }),*]
    };
}

/// Breaks one clause of an accepted table; none if the table has nothing to break so.
pub fn damage(random: &mut Random, table: &[u8], damage: &Damage) -> Option<Vec<u8>> {
    let mut list = RecordList::of(table);
    (damage.apply)(random, &mut list).then(|| list.bytes())
}

pub const DAMAGES: &[Damage] = damages! {
    "a partial record" shared::partial_record;
    "shortened" shared::shortened;
    "descending kinds" shared::descending;
    "unknown kind" unknown_kind;
    "no automaton" |_, list| { list.remove_kind(AUTOMATON); true };
    "no records" shared::empty;
    "too many automata" |_, list| too_many(list, AUTOMATON);
    "too many locations" |_, list| too_many(list, LOCATION);
    "too many edges" |_, list| too_many(list, EDGE);
    "too many literals" |_, list| too_many(list, LITERAL);
    "too many clocks" |_, list| too_many(list, CLOCK);
    "too many variables" |_, list| too_many(list, TWIN_VARIABLE);
    "too many nodes" too_many_nodes;
    "too many updates" |_, list| too_many(list, UPDATE);
    "too many resets" |_, list| too_many(list, RESET);
    "unnamed byte of an automaton" |random, list| unnamed(random, list, AUTOMATON, &[1, 4, 7, 15]);
    "unnamed byte of a location" |random, list| unnamed(random, list, LOCATION, &[2, 3, 9, 15]);
    "unnamed byte of an edge" |random, list| unnamed(random, list, EDGE, &[7, 8, 15]);
    "unnamed byte of a literal" |random, list| unnamed(random, list, LITERAL, &[10, 11, 12, 13, 14, 15]);
    "unnamed byte of a clock" |random, list| unnamed(random, list, CLOCK, &[4, 5, 15]);
    "unnamed byte of a variable" |random, list| unnamed(random, list, TWIN_VARIABLE, &[1, 8, 15]);
    "unnamed byte of a node" |random, list| unnamed(random, list, TWIN_NODE, &[12, 13, 14, 15]);
    "unnamed byte of an update"
        |random, list| unnamed(random, list, UPDATE, &[5, 10, 11, 12, 13, 14, 15]);
    "unnamed byte of a reset" |random, list| unnamed(random, list, RESET, &[1, 6, 7, 15]);
    "unused byte under no trigger" |random, list| unused(random, list, LITERAL, 4, &[0], &[5, 6, 7]);
    "unused byte under an event" |random, list| unused(random, list, LITERAL, 4, &[1], &[6, 7]);
    "unused byte under a clock" |random, list| unused(random, list, LITERAL, 4, &[2], &[5]);
    "unused byte of a constant" |random, list| unused(random, list, TWIN_NODE, 1, &[1], &[2, 7]);
    "unused byte of a binary operator"
        |random, list| unused(random, list, TWIN_NODE, 1, &[3, 4, 5, 6, 7, 16, 17, 18, 20, 21], &[6, 11]);
    "unused byte of a raise" |random, list| unused(random, list, UPDATE, 1, &[2], &[6, 7]);
    "idle neither 0 nor 1" |random, list| byte(random, list, EDGE, any, 6, &[2, 3, 255]);
    "unknown sign" |random, list| byte(random, list, LITERAL, any, 1, &[0, 3, 255]);
    "unknown trigger" |random, list| byte(random, list, LITERAL, any, 4, &[3, 4, 255]);
    "event above 31" |random, list| byte(random, list, LITERAL, |r| r[4] == 1, 5, &[32, 64, 255]);
    "unknown timing" |random, list| byte(random, list, CLOCK, any, 1, &[0, 1, 4, 255]);
    "0 ticks" |random, list| word(random, list, CLOCK, any, 2, &[0]);
    "too many ticks" |random, list| word(random, list, CLOCK, any, 2, &[36_001, 40_000, 65_535]);
    "start outside its range"
        |random, list| range(random, list, TWIN_VARIABLE, &[(0, 5, -1), (0, 5, 6), (5, -5, 0), (-5, -3, 0)]);
    "unknown operator" |random, list| byte(random, list, TWIN_NODE, any, 1, &[0, 9, 15, 22, 255]);
    "unknown deed" |random, list| byte(random, list, UPDATE, any, 1, &[0, 3, 255]);
    "raised event above 31" |random, list| byte(random, list, UPDATE, |r| r[1] == RAISE, 4, &[32, 64, 255]);
    "no such initial location" |random, list| names_none(random, list, AUTOMATON, any, 2, LOCATION);
    "no such automaton of a location" |random, list| no_such_automaton(random, list, LOCATION);
    "no such automaton of an edge" |random, list| no_such_automaton(random, list, EDGE);
    "no such source" |random, list| names_none(random, list, EDGE, any, 2, LOCATION);
    "no such target" |random, list| names_none(random, list, EDGE, any, 4, LOCATION);
    "no such edge of a literal" |random, list| names_none(random, list, LITERAL, any, 2, EDGE);
    "no such clock read" |random, list| names_none(random, list, LITERAL, |r| r[4] == 2, 6, CLOCK);
    "no such guard" no_such_guard;
    "no such variable read"
        |random, list| names_none(random, list, TWIN_NODE, |r| r[1] == 2, 2, TWIN_VARIABLE);
    "no such operand" |random, list| names_none(random, list, TWIN_NODE, |r| r[1] >= 3, 2, TWIN_NODE);
    "no such second operand"
        |random, list| names_none(random, list, TWIN_NODE, |r| r[1] >= 3 && r[1] != 19, 4, TWIN_NODE);
    "no such edge of an update" |random, list| names_none(random, list, UPDATE, any, 2, EDGE);
    "no such variable assigned" |random, list| no_such_variable(random, list);
    "no such node assigned" |random, list| names_none(random, list, UPDATE, |r| r[1] == 1, 6, TWIN_NODE);
    "no such guard of an assignment" |random, list| no_such_update_guard(random, list, ASSIGN);
    "no such guard of a raise" |random, list| no_such_update_guard(random, list, RAISE);
    "no such edge of a reset" |random, list| names_none(random, list, RESET, any, 2, EDGE);
    "no such clock reset" |random, list| names_none(random, list, RESET, any, 4, CLOCK);
    "initial location elsewhere" |random, list| elsewhere(random, list, AUTOMATON, 2);
    "source elsewhere" |random, list| elsewhere(random, list, EDGE, 2);
    "target elsewhere" |random, list| elsewhere(random, list, EDGE, 4);
    "edge of another automaton" edge_of_another;
    "idle edge with two ends" idle_with_two_ends;
    "operand of its own" |random, list| operand_not_lower(random, list, 0);
    "operand higher" |random, list| operand_not_lower(random, list, 1);
    "operand of the wrong sort" operand_of_wrong_sort;
    "guard that is a number"
        |random, list| wrong_sort(random, list, LITERAL, 8, |r| read_u16(r, 8) != NONE, |o| o < 16);
    "assigned truth" |random, list| wrong_sort(random, list, UPDATE, 6, |r| r[1] == ASSIGN, |o| o >= 16);
    "update's guard that is a number" update_guard_a_number;
    "operand twice in one node" operand_twice_in_one;
    "operand of two nodes" operand_of_two;
};

fn unknown_kind(random: &mut Random, list: &mut RecordList) -> bool {
    let at = random.below(list.records.len());
    list.records[at][0] = random.pick(&[0, 1, 6, 32, 42, 255]);
    true
}

/// One more than a table may have, by copies of the first.
fn too_many(list: &mut RecordList, kind: u8) -> bool {
    let some = list.count(kind) > 0;
    if some {
        list.fill(kind, most(kind) + 1);
    }
    some
}

/// More constants, so that no operand is used twice.
fn too_many_nodes(_: &mut Random, list: &mut RecordList) -> bool {
    let mut constant = [0; RECORD_LEN];
    constant[0] = TWIN_NODE;
    constant[1] = 1;
    while list.count(TWIN_NODE) <= most(TWIN_NODE) {
        list.append(constant);
    }
    true
}

fn word(
    random: &mut Random,
    list: &mut RecordList,
    kind: u8,
    fits: fn(&Record) -> bool,
    at: usize,
    values: &[u16],
) -> bool {
    list.change(random, kind, fits, |random, record| write_u16(record, at, random.pick(values)))
}

fn names_none(
    random: &mut Random,
    list: &mut RecordList,
    kind: u8,
    fits: fn(&Record) -> bool,
    at: usize,
    named: u8,
) -> bool {
    let count = u16::try_from(list.count(named)).expect("at most 7,168");
    word(random, list, kind, fits, at, &[count, count, count + 1, u16::MAX])
}

fn no_such_guard(random: &mut Random, list: &mut RecordList) -> bool {
    let count = u16::try_from(list.count(TWIN_NODE)).expect("at most 1,024");
    word(random, list, LITERAL, any, 8, &[count, count + 1, u16::MAX - 1])
}

/// The bytes of an update's guard hold its node plus one.
fn no_such_update_guard(random: &mut Random, list: &mut RecordList, deed: u8) -> bool {
    let count = u16::try_from(list.count(TWIN_NODE)).expect("at most 1,024");
    list.change(
        random,
        UPDATE,
        |r| r[1] == deed,
        |random, record| write_u16(record, 8, random.pick(&[count + 1, count + 2, u16::MAX])),
    )
}

fn no_such_automaton(random: &mut Random, list: &mut RecordList, kind: u8) -> bool {
    let count = u8::try_from(list.count(AUTOMATON)).expect("at most 8");
    byte(random, list, kind, any, 1, &[count, count + 1, 255])
}

fn no_such_variable(random: &mut Random, list: &mut RecordList) -> bool {
    let count = u8::try_from(list.count(TWIN_VARIABLE)).expect("at most 64");
    byte(random, list, UPDATE, |r| r[1] == ASSIGN, 4, &[count, count + 1, 255])
}

fn owners(list: &RecordList) -> Vec<u8> {
    list.numbers(LOCATION, any).iter().map(|location| list.get(LOCATION, *location)[1]).collect()
}

/// A location field names a location of another automaton.
fn elsewhere(random: &mut Random, list: &mut RecordList, kind: u8, at: usize) -> bool {
    let owners = owners(list);
    let Some(number) = list.pick(random, kind, any) else {
        return false;
    };
    let mut record = list.get(kind, number);
    let own = owners[usize::from(read_u16(&record, at))];
    let others: Vec<u16> =
        (0u16..).zip(&owners).filter(|(_, owner)| **owner != own).map(|(l, _)| l).collect();
    if others.is_empty() {
        return false;
    }
    write_u16(&mut record, at, random.pick(&others));
    list.set(kind, number, record);
    true
}

fn edge_of_another(random: &mut Random, list: &mut RecordList) -> bool {
    let count = u8::try_from(list.count(AUTOMATON)).expect("at most 8");
    count > 1 && list.change(random, EDGE, any, |_, record| record[1] = (record[1] + 1) % count)
}

fn idle_with_two_ends(random: &mut Random, list: &mut RecordList) -> bool {
    let two_ends = |r: &Record| read_u16(r, 2) != read_u16(r, 4);
    list.change(random, EDGE, two_ends, |_, record| record[6] = 1)
}

/// The last operator node takes itself or a node after it as its first operand.
fn operand_not_lower(_: &mut Random, list: &mut RecordList, above: usize) -> bool {
    let nodes = list.count(TWIN_NODE);
    let Some(own) = list.numbers(TWIN_NODE, |r| r[1] >= 3).into_iter().rfind(|own| own + above < nodes)
    else {
        return false;
    };
    let mut record = list.get(TWIN_NODE, own);
    write_u16(&mut record, 2, u16::try_from(own + above).expect("at most 1,024"));
    list.set(TWIN_NODE, own, record);
    true
}

/// A comparison that is an operand becomes a sum, or a sum a comparison.
fn operand_of_wrong_sort(random: &mut Random, list: &mut RecordList) -> bool {
    let used = operands(list);
    let binary = |node: &u16| matches!(list.get(TWIN_NODE, usize::from(*node))[1], 3..=7 | 16..=18);
    let fit: Vec<u16> = used.into_iter().filter(binary).collect();
    if fit.is_empty() {
        return false;
    }
    let node = usize::from(random.pick(&fit));
    let mut record = list.get(TWIN_NODE, node);
    record[1] = if record[1] < 16 { 16 } else { 3 };
    list.set(TWIN_NODE, node, record);
    true
}

fn operands(list: &RecordList) -> Vec<u16> {
    let mut operands = Vec::new();
    for node in list.numbers(TWIN_NODE, any) {
        let record = list.get(TWIN_NODE, node);
        let count = match record[1] {
            1 | 2 => 0,
            19 => 1,
            8 => 3,
            _ => 2,
        };
        operands.extend((0..count).map(|place| read_u16(&record, 2 + 2 * place)));
    }
    operands
}

/// A literal or update takes a node of the other sort.
fn wrong_sort(
    random: &mut Random,
    list: &mut RecordList,
    kind: u8,
    at: usize,
    fits: fn(&Record) -> bool,
    wrong: fn(u8) -> bool,
) -> bool {
    let Some(node) = list.pick(random, TWIN_NODE, |r| wrong(r[1])) else {
        return false;
    };
    let node = u16::try_from(node).expect("at most 1,024");
    list.change(random, kind, fits, |_, record| write_u16(record, at, node))
}

fn update_guard_a_number(random: &mut Random, list: &mut RecordList) -> bool {
    let Some(node) = list.pick(random, TWIN_NODE, |r| r[1] < 16) else {
        return false;
    };
    let node = u16::try_from(node).expect("at most 1,024");
    list.change(random, UPDATE, any, |_, record| *record = done_if(*record, node))
}

fn operand_twice_in_one(random: &mut Random, list: &mut RecordList) -> bool {
    let binary = |r: &Record| matches!(r[1], 3..=7 | 16..=18 | 20 | 21);
    list.change(random, TWIN_NODE, binary, |_, record| {
        let first = read_u16(record, 2);
        write_u16(record, 4, first);
    })
}

/// Two comparisons or number operators share a first operand.
fn operand_of_two(random: &mut Random, list: &mut RecordList) -> bool {
    let binary = list.numbers(TWIN_NODE, |r| matches!(r[1], 3..=7 | 16..=18));
    if binary.len() < 2 {
        return false;
    }
    let at = random.below(binary.len() - 1);
    let shared = read_u16(&list.get(TWIN_NODE, binary[at]), 2);
    let mut later = list.get(TWIN_NODE, binary[at + 1]);
    write_u16(&mut later, 2, shared);
    list.set(TWIN_NODE, binary[at + 1], later);
    true
}
