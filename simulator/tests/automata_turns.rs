//! The rules of an automaton's turn on tables that are no translations.

use simulator::assemble::*;
use simulator::automata::AutomataTable;
use simulator::deeds::Deed;
use simulator::expressions::Node;
use simulator::generate::calls::{call_list, events_of_table, CallAnswer};
use simulator::generate::tables::any_table;
use simulator::node_rules::node_operands;
use simulator::operators::*;
use simulator::records::*;
use simulator::timing::{Clock, Timing};
use simulator::variables::Variable;
use simulator::Machine;
use simulator::{Answer, Random};
use std::collections::BTreeMap;

/// One automaton with locations 0 and 1, one variable from 0 to 9, and two clocks: after 2, every 2.
fn table(
    edges: &[Record],
    literals: &[Record],
    nodes: &[Node],
    updates: &[Record],
    resets: &[Record],
) -> AutomataTable {
    let clocks = [Clock { timing: Timing::After, ticks: 2 }, Clock { timing: Timing::Every, ticks: 2 }];
    let mut records = vec![automaton(0), location(0), location(0)];
    records.extend(edges);
    records.extend(literals);
    records.extend(clocks.iter().map(clock));
    records.push(variable(TWIN_VARIABLE, &Variable { lowest: 0, highest: 9, start: 0 }));
    records.extend(nodes.iter().map(|one| node(TWIN_NODE, one)));
    records.extend(updates);
    records.extend(resets);
    AutomataTable::read(&file(records)).expect("accepted")
}

/// Two truths that fault: node 4 divides by zero, node 9 leaves the range.
fn nodes() -> Vec<Node> {
    vec![
        constant(1),
        constant(0),
        operation(QUOTIENT, &[0, 1]),
        constant(7),
        operation(EQUAL, &[2, 3]),
        constant(i32::MAX),
        constant(1),
        operation(SUM, &[5, 6]),
        constant(7),
        operation(EQUAL, &[7, 8]),
    ]
}
const DIVIDES: u16 = 4;
const OVERFLOWS: u16 = 9;

fn turn(table: &AutomataTable, events: u32) -> Result<Answer, u32> {
    table.turn(&mut table.start(), events)
}

#[test]
fn no_edge_and_two_edges() {
    assert_eq!(turn(&table(&[], &[], &[], &[], &[]), 0), Err(18));
    let away = edge(0, 0, 1, false);
    assert_eq!(turn(&table(&[away], &[], &[], &[], &[]), 0), Ok(Answer::Taken(0)), "no literals: open");
    assert_eq!(turn(&table(&[away, away], &[], &[], &[], &[]), 0), Err(19));
    assert_eq!(turn(&table(&[away, edge(0, 1, 1, false)], &[], &[], &[], &[]), 0), Ok(Answer::Taken(0)));
    let never = literal(MUST_NOT, 0, NONE);
    assert_eq!(
        turn(&table(&[away], &[never], &[], &[], &[]), 0),
        Err(18),
        "a must-not of nothing always fails"
    );
    let always = literal(MUST_HOLD, 0, NONE);
    assert_eq!(turn(&table(&[away], &[always], &[], &[], &[]), 0), Ok(Answer::Taken(0)));
}

#[test]
fn events_open_and_close() {
    let edges = [edge(0, 0, 1, false), edge(0, 0, 0, true)];
    let on = reads_event(literal(MUST_HOLD, 0, NONE), 31);
    let off = reads_event(literal(MUST_NOT, 1, NONE), 31);
    let both = table(&edges, &[off, on], &[], &[], &[]);
    assert_eq!(turn(&both, 1 << 31), Ok(Answer::Taken(0)));
    assert_eq!(turn(&both, !(1 << 31)), Ok(Answer::Taken(1)), "an idle edge answers its number");
}

#[test]
fn the_lowest_edge_with_a_fault_counts_before_eighteen_and_nineteen() {
    let edges = [edge(0, 0, 1, false), edge(0, 0, 1, false), edge(0, 0, 1, false)];
    let divides = |edge| literal(MUST_HOLD, edge, DIVIDES);
    let overflows = |edge| literal(MUST_HOLD, edge, OVERFLOWS);
    // Literals of edge 2 stand first in the file; the lowest edge is read first.
    let faults = |literals: &[Record]| turn(&table(&edges, literals, &nodes(), &[], &[]), 0);
    assert_eq!(faults(&[overflows(2), divides(1)]), Err(16));
    assert_eq!(faults(&[divides(2), overflows(1)]), Err(15));
    assert_eq!(faults(&[divides(2)]), Err(16), "though two others are open");
    let closed = literal(MUST_NOT, 2, NONE);
    assert_eq!(faults(&[closed, divides(2)]), Err(19), "reading stops at the first literal that fails");
    assert_eq!(faults(&[divides(2), closed]), Err(16));
    let absent = reads_event(literal(MUST_HOLD, 2, DIVIDES), 0);
    assert_eq!(faults(&[absent]), Err(19), "the guard only if the trigger holds");
}

#[test]
fn updates_in_file_order_then_resets() {
    let edges = [edge(0, 0, 0, true), edge(0, 1, 1, true)];
    let numbers = [constant(4), variable_value(0), constant(3), operation(SUM, &[1, 2]), constant(10)];
    let assign = |edge, node| update(edge, Deed::Assign { variable: 0, node });
    let updates = [assign(0, 0), assign(1, 4), assign(0, 3), update(0, Deed::Raise { event: 9 })];
    let table = table(&edges, &[], &numbers, &updates, &[reset(0, 1)]);
    let mut run = table.start();
    run.clocks[0] = 2;
    run.clocks[1] = 2;
    assert_eq!(table.turn(&mut run, 1), Ok(Answer::Taken(0)));
    assert_eq!((run.variables[0], run.events, run.clocks[0], run.clocks[1]), (7, 1 << 9 | 1, 2, 0));
    assert_eq!(table.turn(&mut run, 0), Ok(Answer::Time));
    assert_eq!((run.events, run.cycles, run.clocks[0], run.clocks[1]), (0, 1, 2, 1));
    // Location 1's idle edge assigns 10, above the highest.
    run.locations[0] = 1;
    let before = run;
    assert_eq!(table.turn(&mut run, 0), Err(17));
    assert_eq!(run, before);
}

#[test]
fn an_update_whose_guard_is_false_is_left_out() {
    let edges = [edge(0, 0, 0, true)];
    // Node 2: the variable is 0. Node 9 divides by zero and node 14 leaves the range, as truths.
    let mut numbers =
        vec![variable_value(0), constant(0), operation(EQUAL, &[0, 1]), constant(5), constant(10)];
    numbers.extend(nodes().into_iter().map(|mut node| {
        let count = node_operands(&node).len();
        node.operands[..count].iter_mut().for_each(|operand| *operand += 5);
        node
    }));
    let assign = |node| update(0, Deed::Assign { variable: 0, node });
    let raise = |event| update(0, Deed::Raise { event });
    let after = |updates: &[Record]| {
        let table = table(&edges, &[], &numbers, updates, &[]);
        let mut run = table.start();
        table.turn(&mut run, 0).map(|_| (run.variables[0], run.events))
    };
    // Many updates share the guard, and each sees what those before it assigned.
    assert_eq!(after(&[done_if(raise(0), 2), done_if(assign(3), 2), done_if(raise(1), 2)]), Ok((5, 1)));
    assert_eq!(after(&[assign(3), done_if(assign(4), 2)]), Ok((5, 0)), "10 is outside, but not assigned");
    assert_eq!(after(&[done_if(assign(4), 2)]), Err(17));
    assert_eq!(after(&[assign(3), done_if(assign(7), 2)]), Ok((5, 0)), "the quotient is not worked out");
    assert_eq!(after(&[done_if(assign(7), 2)]), Err(16));
    assert_eq!(after(&[done_if(raise(0), DIVIDES + 5)]), Err(16), "a raise's guard faults");
    assert_eq!(after(&[done_if(assign(4), OVERFLOWS + 5)]), Err(15), "the guard before the number");
    assert_eq!(after(&[assign(4), done_if(raise(0), DIVIDES + 5)]), Err(17), "the fault met first");
}

#[test]
fn clocks_grow_to_their_tops() {
    let table = table(&[edge(0, 0, 0, true)], &[], &[], &[], &[]);
    let mut run = table.start();
    let mut seen = Vec::new();
    for _ in 0..6 {
        table.cycle(&mut run, 0).unwrap();
        seen.push((run.clocks[0], run.clocks[1]));
    }
    assert_eq!(seen, [(1, 1), (2, 2), (2, 1), (2, 2), (2, 1), (2, 2)]);
}

#[test]
fn a_clock_trigger_holds_at_its_ticks() {
    let edges = [edge(0, 0, 1, false), edge(0, 0, 0, true), edge(0, 1, 1, true)];
    let on = reads_clock(literal(MUST_HOLD, 0, NONE), 0);
    let off = reads_clock(literal(MUST_NOT, 1, NONE), 0);
    let table = table(&edges, &[on, off], &[], &[], &[]);
    for (clock, answer) in [(0, Ok(1)), (1, Ok(1)), (2, Ok(0)), (3, Err(12))] {
        let mut run = table.start();
        run.clocks[0] = clock;
        assert_eq!(table.turn(&mut run, 0), answer.map(Answer::Taken), "clock {clock}");
    }
}

#[test]
fn what_a_table_may_do_and_a_set_may_not() {
    let two_uses = [literal(MUST_HOLD, 0, DIVIDES), literal(MUST_NOT, 1, DIVIDES)];
    let edges = [edge(0, 0, 1, false), edge(0, 1, 0, false)];
    // Shared guards, an operand that is a guard too, unused nodes: all accepted.
    table(&edges, &two_uses, &nodes(), &[], &[reset(1, 0), reset(0, 0), reset(0, 0)]);
    table(&edges, &[], &nodes(), &[update(0, Deed::Assign { variable: 0, node: 0 })], &[]);
}

#[test]
fn generated_tables_reach_every_outcome() {
    let mut random = Random::new(1);
    let mut tally: BTreeMap<String, usize> = BTreeMap::new();
    for _ in 0..2_000 {
        let table = AutomataTable::read(&any_table(&mut random)).unwrap();
        let mut run = table.start();
        for call in call_list(&mut random, table.automata(), events_of_table(&table), 30) {
            let before = run;
            let found = call.on_automata(&table, &mut run);
            let shown = match found {
                Ok(CallAnswer::Turn(Answer::Taken(number))) => {
                    let idle = table.edges[usize::from(number)].idle;
                    String::from(if idle { "idle edge" } else { "edge" })
                }
                Ok(other) => format!("{other:?}"),
                Err(number) => {
                    assert_eq!(run, before, "a refused call changes nothing");
                    number.to_string()
                }
            };
            assert!(table.possible(&run), "a reached run is possible");
            *tally.entry(shown).or_default() += 1;
        }
    }
    for outcome in ["idle edge", "edge", "Turn(Time)", "Done", "13", "15", "16", "17", "18", "19"] {
        assert!(tally.get(outcome).copied().unwrap_or(0) > 20, "{outcome} came up too seldom: {tally:?}");
    }
}
