//! Damaged chart sets: every clause of refusals 1 to 9 and 25, one at a time or two together.

use super::record_list::shared::{any, byte, range, unnamed, unused};
use super::record_list::{not_zero, shared, Damage, RecordList};
use crate::assemble;
use crate::charts;
use crate::deeds::Deed;
use crate::operators::*;
use crate::random::Random;
use crate::records::*;

/// A damaged set with the refusal that must be given and the clauses broken.
pub struct Damaged {
    pub bytes: Vec<u8>,
    pub number: u32,
    pub clauses: Vec<&'static str>,
}

/// Breaks one clause of an accepted set; none if the set has nothing to break so.
pub fn damage(random: &mut Random, set: &[u8], damage: &Damage) -> Option<Damaged> {
    let mut list = RecordList::of(set);
    (damage.apply)(random, &mut list).then(|| Damaged {
        bytes: list.bytes(),
        number: damage.number,
        clauses: vec![damage.clause],
    })
}

/// Breaks two clauses of different numbers, every pair of numbers equally often; the lower must be given.
pub fn damage_twice(random: &mut Random, set: &[u8]) -> Option<Damaged> {
    let (low, high) = random.pick(&number_pairs());
    damage_pair(random, set, low, high)
}

/// The refusals of a chart file.
pub const NUMBERS: [u32; 10] = [1, 2, 3, 4, 5, 6, 7, 8, 9, 25];

/// Every two of the numbers, the lower first. All of them can apply together: the later ones are asked of the whole
/// records of known kinds, which 1, 2 and 3 leave. 25, being the last, is the lower of none.
pub fn number_pairs() -> Vec<(u32, u32)> {
    let after = |low: u32| NUMBERS.into_iter().filter(move |high| *high > low);
    NUMBERS.into_iter().flat_map(|low| after(low).map(move |high| (low, high))).collect()
}

/// Breaks a clause of each of two numbers; none where the set has nothing to break so, or where the second damage did away
/// with the first. The higher is broken first, so that the lower is broken in what is then there.
pub fn damage_pair(random: &mut Random, set: &[u8], low: u32, high: u32) -> Option<Damaged> {
    let of = |number: u32| DAMAGES.iter().filter(|damage| damage.number == number).collect::<Vec<_>>();
    let (lower, higher) = (random.pick(&of(low)), random.pick(&of(high)));
    let mut list = RecordList::of(set);
    let broken = (higher.apply)(random, &mut list) && (lower.apply)(random, &mut list);
    let bytes = list.bytes();
    let both = broken && charts::applying(&bytes)[high as usize];
    both.then(|| Damaged { bytes, number: low, clauses: vec![lower.clause, higher.clause] })
}

macro_rules! damages {
    ($($number:literal $clause:literal $apply:expr;)*) => {
        &[$(Damage { number: $number, clause: $clause, apply: $apply }),*]
    };
}

pub const DAMAGES: &[Damage] = damages! {
    1 "a partial record" shared::partial_record;
    1 "shortened" shared::shortened;
    2 "unknown kind" unknown_kind;
    2 "kind 0 first" kind_zero_first;
    2 "unknown kind last" unknown_kind_last;
    2 "descending kinds" shared::descending;
    3 "no chart" |_, list| { list.remove_kind(CHART); true };
    3 "no records" shared::empty;
    3 "too many charts" |_, list| { list.fill(CHART, 9); true };
    3 "too many states" |_, list| { list.fill(STATE, 129); true };
    3 "too many transitions" |_, list| { list.fill(TRANSITION, 257); true };
    3 "too many variables" |_, list| { list.fill(VARIABLE, 65); true };
    3 "too many nodes" |_, list| { list.fill(NODE, 1_025); true };
    3 "too many actions" |_, list| { list.fill(ACTION, 513); true };
    4 "unnamed byte of a chart"
        |random, list| unnamed(random, list, CHART, &[1, 4, 5, 6, 7, 8, 9, 10, 11, 12, 13, 14, 15]);
    4 "unnamed byte of a state"
        |random, list| unnamed(random, list, STATE, &[2, 3, 4, 5, 6, 7, 8, 9, 10, 11, 12, 13, 14, 15]);
    4 "unnamed byte of a transition" |random, list| unnamed(random, list, TRANSITION, &[14, 15]);
    4 "unnamed byte of a variable"
        |random, list| unnamed(random, list, VARIABLE, &[1, 8, 9, 10, 11, 12, 13, 14, 15]);
    4 "unnamed byte of a node" |random, list| unnamed(random, list, NODE, &[12, 13, 14, 15]);
    4 "unnamed byte of an action" |random, list| unnamed(random, list, ACTION, &[10, 11]);
    4 "unused byte under no trigger"
        |random, list| unused(random, list, TRANSITION, 6, &[0], &[7, 8, 9, 10, 11]);
    4 "unused byte under an event" |random, list| unused(random, list, TRANSITION, 6, &[1], &[8, 9, 10, 11]);
    4 "unused byte under a time" |random, list| unused(random, list, TRANSITION, 6, &[2, 3], &[7]);
    4 "unused byte of a constant" |random, list| unused(random, list, NODE, 1, &[1], &[2, 3, 4, 5, 6, 7]);
    4 "unused byte of a variable's value"
        |random, list| unused(random, list, NODE, 1, &[2], &[4, 5, 6, 7, 8, 9, 10, 11]);
    4 "unused byte of a binary operator"
        |random, list| unused(random, list, NODE, 1, &[3, 4, 5, 6, 7, 16, 17, 18, 20, 21], &[6, 7, 8, 9, 10, 11]);
    4 "unused byte of a choice" |random, list| unused(random, list, NODE, 1, &[8], &[8, 9, 10, 11]);
    4 "unused byte of a not" |random, list| unused(random, list, NODE, 1, &[19], &[4, 5, 6, 7, 8, 9, 10, 11]);
    4 "unused byte of a raise" |random, list| unused(random, list, ACTION, 4, &[2], &[6, 7]);
    4 "unused byte of a raise of unknown place" raise_of_unknown_place;
    4 "unused byte of an action that does not wait"
        |random, list| unused(random, list, ACTION, 1, &[1, 2, 3], &[12, 13, 14, 15]);
    4 "milliseconds of another place" |random, list| byte(random, list, ACTION, |r| r[1] == 4, 1, &[1, 2, 3]);
    4 "unused byte of an action of unknown deed" waits_nowhere_by_unknown_deed;
    4 "unnamed byte under an unknown trigger"
        |random, list| unknown_code(random, list, TRANSITION, 6, &[14, 15]);
    4 "unnamed byte under an unknown operator"
        |random, list| unknown_code(random, list, NODE, 1, &[12, 13, 14, 15]);
    4 "unnamed byte under an unknown place"
        |random, list| unknown_code(random, list, ACTION, 1, &[10, 11]);
    4 "unnamed byte under an unknown deed"
        |random, list| unknown_code(random, list, ACTION, 4, &[10, 11]);
    5 "priority 0" |random, list| byte(random, list, TRANSITION, any, 1, &[0]);
    5 "priority above 16" |random, list| byte(random, list, TRANSITION, any, 1, &[17, 18, 128, 255]);
    5 "unknown trigger" |random, list| byte(random, list, TRANSITION, any, 6, &[4, 5, 255]);
    5 "unknown trigger, bytes passed over"
        |random, list| unknown_code(random, list, TRANSITION, 6, &[7, 8, 9, 10, 11]);
    5 "event above 31" |random, list| byte(random, list, TRANSITION, |r| r[6] == 1, 7, &[32, 33, 64, 255]);
    5 "0 milliseconds" |random, list| milliseconds(random, list, TRANSITION, &[0]);
    5 "too many milliseconds" |random, list| milliseconds(random, list, TRANSITION, TOO_MANY);
    5 "0 milliseconds of a waiting action" |random, list| milliseconds(random, list, ACTION, &[0]);
    5 "too many milliseconds of a waiting action" |random, list| milliseconds(random, list, ACTION, TOO_MANY);
    5 "waiting without milliseconds" |random, list| byte(random, list, ACTION, |r| r[1] < 4, 1, &[4]);
    5 "start below lowest"
        |random, list| range(random, list, VARIABLE, &[(0, 5, -1), (-1, 5, -2), (300, 400, 299), (-32_767, 0, -32_768)]);
    5 "start above highest"
        |random, list| range(random, list, VARIABLE, &[(0, 5, 6), (-5, -3, -2), (-5, -1, 0), (-400, 300, 301), (0, 32_766, 32_767)]);
    5 "lowest above highest" |random, list| range(random, list, VARIABLE, &[(5, -5, 0), (1, 0, 1), (1, 0, 0)]);
    5 "unknown operator" |random, list| byte(random, list, NODE, any, 1, &[0, 9, 15, 22, 255]);
    5 "unknown operator, bytes passed over"
        |random, list| unknown_code(random, list, NODE, 1, &[2, 3, 4, 5, 6, 7, 8, 9, 10, 11]);
    5 "unknown place" |random, list| byte(random, list, ACTION, any, 1, &[0, 5, 255]);
    5 "unknown place, bytes passed over"
        |random, list| unknown_code(random, list, ACTION, 1, &[12, 13, 14, 15]);
    5 "unknown place, any guard" |random, list| unknown_code(random, list, ACTION, 1, &[8, 9]);
    5 "unknown deed" |random, list| byte(random, list, ACTION, any, 4, &[0, 3, 255]);
    5 "unknown deed, bytes passed over" |random, list| unknown_code(random, list, ACTION, 4, &[6, 7]);
    5 "unknown deed, any guard" |random, list| unknown_code(random, list, ACTION, 4, &[8, 9]);
    5 "raised event above 31"
        |random, list| byte(random, list, ACTION, |r| r[4] == RAISE, 5, &[32, 63, 64, 255]);
    6 "no such initial state" |random, list| names_none(random, list, CHART, any, 2, STATE);
    6 "no such chart" no_such_chart;
    6 "no such source" |random, list| names_none(random, list, TRANSITION, any, 2, STATE);
    6 "no such target" |random, list| names_none(random, list, TRANSITION, any, 4, STATE);
    6 "no such guard" no_such_guard;
    6 "no such variable read" |random, list| names_none(random, list, NODE, |r| r[1] == 2, 2, VARIABLE);
    6 "no such first operand" |random, list| names_none(random, list, NODE, |r| r[1] >= 3, 2, NODE);
    6 "no such second operand"
        |random, list| names_none(random, list, NODE, |r| r[1] >= 3 && r[1] != 19, 4, NODE);
    6 "no such third operand" |random, list| names_none(random, list, NODE, |r| r[1] == 8, 6, NODE);
    6 "no such state as owner" |random, list| names_none(random, list, ACTION, |r| r[1] < 3, 2, STATE);
    6 "no such state that waits" |random, list| names_none(random, list, ACTION, |r| r[1] == 4, 2, STATE);
    6 "no such transition as owner"
        |random, list| names_none(random, list, ACTION, |r| r[1] == 3, 2, TRANSITION);
    6 "no such variable assigned" no_such_variable_assigned;
    6 "no such node assigned" |random, list| names_none(random, list, ACTION, |r| r[4] == 1, 6, NODE);
    6 "no such guard of an assignment" |random, list| no_such_action_guard(random, list, ASSIGN);
    6 "no such guard of a raise" |random, list| no_such_action_guard(random, list, RAISE);
    6 "guard FF FF of an action"
        |random, list| list.change(random, ACTION, any, |_, record| write_u16(record, 8, u16::MAX));
    7 "target in another chart" target_elsewhere;
    7 "source in another chart" source_elsewhere;
    7 "initial state of another chart" initial_elsewhere;
    7 "initial state that is not left" initial_not_left;
    7 "initial state left twice" initial_left_twice;
    7 "initial state left by a trigger" initial_trigger;
    7 "initial state left by a guard" initial_guard;
    7 "initial state entered" initial_entered;
    7 "initial state with an entry action" |random, list| initial_action(random, list, ENTRY);
    7 "initial state with an exit action" |random, list| initial_action(random, list, EXIT);
    7 "equal priorities" equal_priorities;
    7 "ninth action of a state" |random, list| ninth_action(random, list, STATE, &[ENTRY, EXIT]);
    7 "ninth entry action" |random, list| ninth_action(random, list, STATE, &[ENTRY]);
    7 "ninth action of a state that waits"
        |random, list| ninth_action(random, list, STATE, &[ENTRY, EXIT, WAITING]);
    7 "ninth waiting action" |random, list| ninth_action(random, list, STATE, &[WAITING]);
    7 "ninth action of a transition" |random, list| ninth_action(random, list, TRANSITION, &[ON_TRANSITION]);
    8 "operand of its own" |random, list| operand_not_lower(random, list, true);
    8 "operand higher" |random, list| operand_not_lower(random, list, false);
    8 "truth where an operand is a number" number_operand_made_truth;
    8 "number where an operand is a truth" truth_operand_made_number;
    8 "guard that is a number" guard_made_number;
    8 "assigned truth" assigned_made_truth;
    8 "node used by nothing" unused_node;
    8 "guard left out" guard_left_out;
    8 "node used twice as a guard" guard_used_twice;
    8 "node used twice as assigned" assigned_used_twice;
    8 "node used twice as an operand" operand_used_twice;
    8 "guard that is also an operand" guard_also_operand;
    8 "action's guard that is a number" |random, list| change_one_sort(random, list, action_guards(list));
    8 "action's guard that is its number" action_guard_its_number;
    8 "action's guard left out"
        |random, list| list.change(random, ACTION, has_guard, |_, record| write_u16(record, 8, 0));
    8 "guard of two actions"
        |random, list| share_with_action(random, list, |r| !has_guard(r), action_guards(list));
    8 "guard of an assignment and a transition"
        |random, list| share_with_action(random, list, |r| r[4] == ASSIGN, guards(list));
    8 "guard of a raise and a transition"
        |random, list| share_with_action(random, list, |r| r[4] == RAISE, guards(list));
    8 "action's guard that is also an operand"
        |random, list| share_with_action(random, list, any, truth_operands(list));
    9 "timing trigger of 0 ticks" |random, list| milliseconds(random, list, TRANSITION, ZERO_TICKS);
    9 "waiting action of 0 ticks" |random, list| milliseconds(random, list, ACTION, ZERO_TICKS);
    25 "another time of a waiting action" other_waiting_time;
    25 "two more waiting actions that differ" two_more_that_differ;
};

const TOO_MANY: &[u32] = &[3_600_001, 3_600_049, 3_600_050, 1 << 31, u32::MAX];
/// 50 often, which is 0 only because a half goes to the even tick.
const ZERO_TICKS: &[u32] = &[1, 2, 25, 48, 49, 50, 50, 50, 50];

fn unknown_kind(random: &mut Random, list: &mut RecordList) -> bool {
    if list.records.is_empty() {
        return false;
    }
    let at = random.below(list.records.len());
    list.records[at][0] = random.pick(&[0, 7, 8, 33, 41, 129, 255]);
    true
}

fn kind_zero_first(_: &mut Random, list: &mut RecordList) -> bool {
    list.records.insert(0, [0; 16]);
    true
}

fn unknown_kind_last(random: &mut Random, list: &mut RecordList) -> bool {
    let mut record = [0; 16];
    record[0] = random.u8_between(7, 255);
    list.records.push(record);
    true
}

/// An unknown code together with a byte other than zero.
fn unknown_code(random: &mut Random, list: &mut RecordList, kind: u8, at: usize, bytes: &[usize]) -> bool {
    list.change(random, kind, any, |random, record| {
        record[at] = random.u8_between(22, 255);
        shared::stray(random, record, bytes);
    })
}

/// What a byte's use hangs on is the deed; an unknown place excuses none.
fn raise_of_unknown_place(random: &mut Random, list: &mut RecordList) -> bool {
    list.change(
        random,
        ACTION,
        |r| r[4] == RAISE,
        |random, record| {
            record[1] = random.pick(&[0, 5, 200]);
            shared::stray(random, record, &[6, 7]);
        },
    )
}

/// What the use of the milliseconds hangs on is the place; an unknown deed excuses none.
fn waits_nowhere_by_unknown_deed(random: &mut Random, list: &mut RecordList) -> bool {
    list.change(
        random,
        ACTION,
        |r| r[1] != WAITING,
        |random, record| {
            record[4] = random.pick(&[0, 3, 200]);
            shared::stray(random, record, &[12, 13, 14, 15]);
        },
    )
}

fn write_time(record: &mut Record, milliseconds: u32) {
    write_u32(record, time_at(record).expect("a record with a time"), milliseconds);
}

/// Another time of a timing trigger, or of a waiting action.
fn milliseconds(random: &mut Random, list: &mut RecordList, kind: u8, values: &[u32]) -> bool {
    let timed = |r: &Record| time_of(r).is_some();
    list.change(random, kind, timed, |random, record| write_time(record, random.pick(values)))
}

fn waiting_in(list: &RecordList, state: u16) -> Vec<usize> {
    list.numbers(ACTION, |r| r[1] == WAITING && read_u16(r, 2) == state)
}

/// Next to a time, of as many ticks often, or far from it.
fn time_beside(random: &mut Random, time: u32) -> u32 {
    let (less, more) = if time > 51 { (time - 1, time + 1) } else { (time + 2, time + 1) };
    random.pick(&[less, more, more, 51 + time % 1_000_000, 100]).min(MOST_MILLISECONDS)
}

fn other_waiting_time(random: &mut Random, list: &mut RecordList) -> bool {
    let not_alone = |r: &Record| r[1] == WAITING && waiting_in(list, read_u16(r, 2)).len() > 1;
    let Some(number) = list.pick(random, ACTION, not_alone) else {
        return false;
    };
    let mut record = list.get(ACTION, number);
    let time = time_of(&record).expect("a waiting action");
    let other = time_beside(random, time);
    write_time(&mut record, other);
    list.set(ACTION, number, record);
    other != time
}

/// A state gets two more waiting actions, whose times differ from each other.
fn two_more_that_differ(random: &mut Random, list: &mut RecordList) -> bool {
    let of_state =
        |state: u16| list.numbers(ACTION, |r| r[1] != ON_TRANSITION && read_u16(r, 2) == state).len();
    let states = (0u16..).take(list.count(STATE));
    let fit: Vec<u16> = states.filter(|state| of_state(*state) + 2 <= ACTIONS_PER_OWNER).collect();
    if fit.is_empty() || list.count(ACTION) + 2 > most(ACTION) {
        return false;
    }
    let state = random.pick(&fit);
    let time = random.pick(&[51, 200, 249, 250, 3_599_999]);
    for milliseconds in [time, time + 1] {
        let raise = assemble::action(WAITING, state, Deed::Raise { event: random.u8_between(0, 31) });
        list.append(assemble::at_each(raise, milliseconds));
    }
    true
}

/// A 16-bit number that names no record of a kind: the first past them, or a far one.
fn beyond(random: &mut Random, list: &RecordList, kind: u8) -> u16 {
    let count = u16::try_from(list.count(kind)).expect("at most 1,024");
    let far = random.u16_between(count, u16::MAX);
    random.pick(&[count, count, far, u16::MAX])
}

fn names_none(
    random: &mut Random,
    list: &mut RecordList,
    kind: u8,
    fits: fn(&Record) -> bool,
    at: usize,
    named: u8,
) -> bool {
    let number = beyond(random, list, named);
    list.change(random, kind, fits, |_, record| write_u16(record, at, number))
}

fn no_such_chart(random: &mut Random, list: &mut RecordList) -> bool {
    let charts = u8::try_from(list.count(CHART)).expect("at most 8");
    list.change(random, STATE, any, |random, record| record[1] = random.pick(&[charts, charts + 1, 255]))
}

/// 65,535 means none for a guard, so it is left out here.
fn no_such_guard(random: &mut Random, list: &mut RecordList) -> bool {
    let number = beyond(random, list, NODE).min(u16::MAX - 1);
    list.change(random, TRANSITION, any, |_, record| write_u16(record, 12, number))
}

/// The bytes of an action's guard hold its node plus one: the last that names nothing is 65,534.
fn no_such_action_guard(random: &mut Random, list: &mut RecordList, deed: u8) -> bool {
    let number = beyond(random, list, NODE).min(u16::MAX - 1);
    list.change(random, ACTION, |r| r[4] == deed, |_, record| *record = assemble::done_if(*record, number))
}

fn no_such_variable_assigned(random: &mut Random, list: &mut RecordList) -> bool {
    let variables = u8::try_from(list.count(VARIABLE)).expect("at most 64");
    list.change(
        random,
        ACTION,
        |r| r[4] == ASSIGN,
        |random, record| {
            record[5] = random.pick(&[variables, variables + 1, 64, 255]);
        },
    )
}

fn chart_of(list: &RecordList, state: usize) -> u8 {
    list.get(STATE, state)[1]
}

fn initial_states(list: &RecordList) -> Vec<u16> {
    list.numbers(CHART, any).iter().map(|chart| read_u16(&list.get(CHART, *chart), 2)).collect()
}

/// States that are no initial ones and fit.
fn plain_states(list: &RecordList, fits: impl Fn(usize) -> bool) -> Vec<u16> {
    let initial = initial_states(list);
    let states = list.numbers(STATE, any).into_iter().filter(|state| fits(*state));
    let numbers = states.map(|state| u16::try_from(state).expect("at most 128"));
    numbers.filter(|state| !initial.contains(state)).collect()
}

/// A transition that leaves no initial state, or one that does.
fn pick_transition(random: &mut Random, list: &RecordList, from_initial: bool) -> Option<(usize, Record)> {
    let initial = initial_states(list);
    let number = list.pick(random, TRANSITION, |r| initial.contains(&read_u16(r, 2)) == from_initial)?;
    Some((number, list.get(TRANSITION, number)))
}

fn move_end(random: &mut Random, list: &mut RecordList, at: usize, end: u16, number: usize) -> bool {
    let other = plain_states(list, |state| chart_of(list, state) != chart_of(list, usize::from(end)));
    if other.is_empty() {
        return false;
    }
    let mut record = list.get(TRANSITION, number);
    write_u16(&mut record, at, random.pick(&other));
    list.set(TRANSITION, number, record);
    true
}

fn target_elsewhere(random: &mut Random, list: &mut RecordList) -> bool {
    let any_initial = random.chance(1, 3);
    let Some((number, record)) = pick_transition(random, list, any_initial) else {
        return false;
    };
    move_end(random, list, 4, read_u16(&record, 4), number)
}

fn source_elsewhere(random: &mut Random, list: &mut RecordList) -> bool {
    let Some((number, record)) = pick_transition(random, list, false) else {
        return false;
    };
    move_end(random, list, 2, read_u16(&record, 2), number)
}

fn initial_elsewhere(random: &mut Random, list: &mut RecordList) -> bool {
    let initial = initial_states(list);
    if initial.len() < 2 {
        return false;
    }
    let one = random.below(initial.len());
    let other = (one + 1) % initial.len();
    let mut record = list.get(CHART, one);
    write_u16(&mut record, 2, initial[other]);
    list.set(CHART, one, record);
    true
}

/// The initial state's transition leaves another state of its chart instead.
fn initial_not_left(random: &mut Random, list: &mut RecordList) -> bool {
    let Some((number, mut record)) = pick_transition(random, list, true) else {
        return false;
    };
    let source = usize::from(read_u16(&record, 2));
    let others = plain_states(list, |state| chart_of(list, state) == chart_of(list, source));
    write_u16(&mut record, 2, random.pick(&others));
    list.set(TRANSITION, number, record);
    true
}

/// Another transition of the chart, of another priority, leaves the initial state too.
fn initial_left_twice(random: &mut Random, list: &mut RecordList) -> bool {
    let Some((number, mut record)) = pick_transition(random, list, false) else {
        return false;
    };
    let chart = chart_of(list, usize::from(read_u16(&record, 2)));
    let initial = initial_states(list)[usize::from(chart)];
    let plain = list.numbers(TRANSITION, |r| read_u16(r, 2) == initial);
    let taken = list.get(TRANSITION, plain[0])[1];
    record[1] = if taken == 16 { 1 } else { taken + 1 };
    write_u16(&mut record, 2, initial);
    list.set(TRANSITION, number, record);
    true
}

fn initial_trigger(random: &mut Random, list: &mut RecordList) -> bool {
    let Some((number, record)) = pick_transition(random, list, true) else {
        return false;
    };
    let changed = match random.below(3) {
        0 => assemble::on_event(record, random.u8_between(0, 31)),
        1 => assemble::after(record, 300),
        _ => assemble::every(record, 300),
    };
    list.set(TRANSITION, number, changed);
    true
}

fn initial_guard(random: &mut Random, list: &mut RecordList) -> bool {
    let nodes = list.count(NODE);
    let Some((number, record)) = pick_transition(random, list, true) else {
        return false;
    };
    if nodes == 0 {
        return false;
    }
    let guard = random.index(nodes);
    list.set(TRANSITION, number, assemble::guarded(record, guard));
    true
}

fn initial_entered(random: &mut Random, list: &mut RecordList) -> bool {
    let from_initial = random.chance(1, 4);
    let Some((number, mut record)) = pick_transition(random, list, from_initial) else {
        return false;
    };
    let chart = chart_of(list, usize::from(read_u16(&record, 2)));
    write_u16(&mut record, 4, initial_states(list)[usize::from(chart)]);
    list.set(TRANSITION, number, record);
    true
}

/// Adds a raise, a waiting one of the state's time; a full file has an action replaced, which may leave a node without use,
/// but 8 is a higher number than 7.
fn add_raise(random: &mut Random, list: &mut RecordList, place: u8, owner: u16) {
    let mut raise = assemble::action(place, owner, Deed::Raise { event: random.u8_between(0, 31) });
    if place == WAITING {
        let others = waiting_in(list, owner);
        let time = others.first().and_then(|number| time_of(&list.get(ACTION, *number)));
        raise = assemble::at_each(raise, time.unwrap_or(200));
    }
    if list.count(ACTION) < 512 {
        list.append(raise);
    } else {
        let not_of_owner =
            |r: &Record| (r[1] == ON_TRANSITION) != (place == ON_TRANSITION) || read_u16(r, 2) != owner;
        list.change(random, ACTION, not_of_owner, |_, record| *record = raise);
    }
}

fn initial_action(random: &mut Random, list: &mut RecordList, place: u8) -> bool {
    let owner = random.pick(&initial_states(list));
    add_raise(random, list, place, owner);
    true
}

fn equal_priorities(random: &mut Random, list: &mut RecordList) -> bool {
    let shares_source = |r: &Record| list.numbers(TRANSITION, |o| read_u16(o, 2) == read_u16(r, 2)).len() > 1;
    let Some(number) = list.pick(random, TRANSITION, shares_source) else {
        return false;
    };
    let mut record = list.get(TRANSITION, number);
    let same = list.numbers(TRANSITION, |o| read_u16(o, 2) == read_u16(&record, 2));
    let others: Vec<usize> = same.into_iter().filter(|other| *other != number).collect();
    record[1] = list.get(TRANSITION, random.pick(&others))[1];
    list.set(TRANSITION, number, record);
    true
}

fn ninth_action(random: &mut Random, list: &mut RecordList, owners: u8, places: &[u8]) -> bool {
    let owner = match owners {
        // An initial state may have waiting actions, and so one too many.
        STATE if places == [WAITING] => random.index(list.count(STATE)),
        STATE => random.pick(&plain_states(list, |_| true)),
        _ => random.index(list.count(TRANSITION)),
    };
    let own = |r: &Record| places.contains(&r[1]) && read_u16(r, 2) == owner;
    while list.numbers(ACTION, own).len() < 9 {
        let place = random.pick(places);
        add_raise(random, list, place, owner);
    }
    true
}

/// Where the operands of a node stand, with the sort each must have.
fn operand_places(record: &Record) -> Vec<(usize, Sort)> {
    let sorts: &[Sort] = match record[1] {
        3..=7 | 16..=18 => &[Sort::Number, Sort::Number],
        8 => &[Sort::Truth, Sort::Number, Sort::Number],
        19 => &[Sort::Truth],
        20 | 21 => &[Sort::Truth, Sort::Truth],
        _ => &[],
    };
    [2, 4, 6].into_iter().zip(sorts.iter().copied()).collect()
}

/// Node, place and operand of every operand of a sort.
fn operands_of(list: &RecordList, sort: Sort) -> Vec<(usize, usize, u16)> {
    let mut found = Vec::new();
    for number in list.numbers(NODE, any) {
        let record = list.get(NODE, number);
        let places = operand_places(&record).into_iter().filter(|(_, takes)| *takes == sort);
        found.extend(places.map(|(at, _)| (number, at, read_u16(&record, at))));
    }
    found
}

fn set_operand(list: &mut RecordList, node: usize, at: usize, operand: u16) {
    let mut record = list.get(NODE, node);
    write_u16(&mut record, at, operand);
    list.set(NODE, node, record);
}

/// Two nodes exchange operands of one sort, so that one gets an operand not lower: itself, or a
/// higher one. Every node is still used once.
fn operand_not_lower(random: &mut Random, list: &mut RecordList, itself: bool) -> bool {
    let sort = random.pick(&[Sort::Number, Sort::Truth]);
    let operands = operands_of(list, sort);
    let mut swaps = Vec::new();
    for (own, at, operand) in &operands {
        let wrong = |other: &&(usize, usize, u16)| {
            let number = usize::from(other.2);
            if itself {
                number == *own
            } else {
                number > *own
            }
        };
        if let Some(other) = operands.iter().find(wrong) {
            swaps.push(((*own, *at, *operand), *other));
        }
    }
    if swaps.is_empty() {
        return false;
    }
    let (one, other) = random.pick(&swaps);
    set_operand(list, one.0, one.1, other.2);
    set_operand(list, other.0, other.1, one.2);
    true
}

/// A binary number operator becomes a comparison, or the other way: the operands still fit.
fn change_sort(random: &mut Random, list: &mut RecordList, node: usize) -> bool {
    let mut record = list.get(NODE, node);
    record[1] = match record[1] {
        3..=7 => random.u8_between(EQUAL, AT_MOST),
        16..=18 => random.u8_between(SUM, REMAINDER),
        _ => return false,
    };
    list.set(NODE, node, record);
    true
}

fn binary(list: &RecordList, node: u16) -> bool {
    matches!(list.get(NODE, usize::from(node))[1], 3..=7 | 16..=18)
}

fn change_one_sort(random: &mut Random, list: &mut RecordList, nodes: Vec<u16>) -> bool {
    let fit: Vec<u16> = nodes.into_iter().filter(|node| binary(list, *node)).collect();
    if fit.is_empty() {
        return false;
    }
    let node = random.pick(&fit);
    change_sort(random, list, usize::from(node))
}

fn number_operand_made_truth(random: &mut Random, list: &mut RecordList) -> bool {
    let operands = operands_of(list, Sort::Number).into_iter().map(|(_, _, operand)| operand).collect();
    change_one_sort(random, list, operands)
}

fn truth_operands(list: &RecordList) -> Vec<u16> {
    operands_of(list, Sort::Truth).into_iter().map(|(_, _, operand)| operand).collect()
}

fn truth_operand_made_number(random: &mut Random, list: &mut RecordList) -> bool {
    change_one_sort(random, list, truth_operands(list))
}

fn guards(list: &RecordList) -> Vec<u16> {
    let guarded = list.numbers(TRANSITION, |r| read_u16(r, 12) != NONE);
    guarded.iter().map(|number| read_u16(&list.get(TRANSITION, *number), 12)).collect()
}

fn has_guard(action: &Record) -> bool {
    deed_guard(action).is_some()
}

fn action_guards(list: &RecordList) -> Vec<u16> {
    let guarded = list.numbers(ACTION, has_guard);
    guarded.iter().filter_map(|number| deed_guard(&list.get(ACTION, *number))).collect()
}

/// An action takes a guard that is in use already.
fn share_with_action(
    random: &mut Random,
    list: &mut RecordList,
    fits: fn(&Record) -> bool,
    used: Vec<u16>,
) -> bool {
    let other = |r: &Record| fits(r) && used.iter().any(|node| Some(*node) != deed_guard(r));
    list.change(random, ACTION, other, |random, record| {
        let others: Vec<u16> =
            used.iter().copied().filter(|node| Some(*node) != deed_guard(record)).collect();
        *record = assemble::done_if(*record, random.pick(&others));
    })
}

fn action_guard_its_number(random: &mut Random, list: &mut RecordList) -> bool {
    list.change(
        random,
        ACTION,
        |r| r[4] == ASSIGN,
        |_, record| *record = assemble::done_if(*record, read_u16(record, 6)),
    )
}

fn assigned(list: &RecordList) -> Vec<u16> {
    let assigning = list.numbers(ACTION, |r| r[4] == ASSIGN);
    assigning.iter().map(|number| read_u16(&list.get(ACTION, *number), 6)).collect()
}

fn guard_made_number(random: &mut Random, list: &mut RecordList) -> bool {
    change_one_sort(random, list, guards(list))
}

fn assigned_made_truth(random: &mut Random, list: &mut RecordList) -> bool {
    change_one_sort(random, list, assigned(list))
}

fn unused_node(random: &mut Random, list: &mut RecordList) -> bool {
    if list.count(NODE) == 1_024 {
        return false;
    }
    let value = i32::from(not_zero(random));
    list.append(assemble::node(NODE, &assemble::constant(value)));
    true
}

fn guard_left_out(random: &mut Random, list: &mut RecordList) -> bool {
    list.change(random, TRANSITION, |r| read_u16(r, 12) != NONE, |_, record| write_u16(record, 12, NONE))
}

fn guard_used_twice(random: &mut Random, list: &mut RecordList) -> bool {
    let guards = guards(list);
    let initial = initial_states(list);
    let free = |r: &Record| read_u16(r, 12) == NONE && !initial.contains(&read_u16(r, 2));
    !guards.is_empty()
        && list.change(random, TRANSITION, free, |random, record| write_u16(record, 12, random.pick(&guards)))
}

fn assigned_used_twice(random: &mut Random, list: &mut RecordList) -> bool {
    let assigned = assigned(list);
    list.change(
        random,
        ACTION,
        |r| r[4] == ASSIGN,
        |random, record| {
            let others: Vec<u16> =
                assigned.iter().copied().filter(|node| *node != read_u16(record, 6)).collect();
            if !others.is_empty() {
                write_u16(record, 6, random.pick(&others));
            }
        },
    ) && assigned.len() > 1
}

/// A binary node takes its first operand twice; both sorts are the same.
fn operand_used_twice(random: &mut Random, list: &mut RecordList) -> bool {
    let binary = |r: &Record| matches!(r[1], 3..=7 | 16..=18 | 20 | 21);
    list.change(random, NODE, binary, |_, record| {
        let first = read_u16(record, 2);
        write_u16(record, 4, first);
    })
}

/// A guard names a truth that is an operand already.
fn guard_also_operand(random: &mut Random, list: &mut RecordList) -> bool {
    let truths = truth_operands(list);
    let guarded = |r: &Record| read_u16(r, 12) != NONE;
    !truths.is_empty()
        && list
            .change(random, TRANSITION, guarded, |random, record| write_u16(record, 12, random.pick(&truths)))
}
