//! Listings: each guard as its line beside its node's number.

use simulator::chart_sets::{guarded_division, guards_in_sequence, sees_while_waiting, zero_watch};
use simulator::expressions::Node;
use simulator::generate::sets::any_valid_set;
use simulator::generate::tables;
use simulator::guards::{self, write_guard};
use simulator::listing::listing;
use simulator::node_rules::node_operands;
use simulator::records::{whole_records, ACTION, LITERAL, NODE, NONE, TRANSITION, TWIN_NODE, UPDATE};
use simulator::translation::twin;
use simulator::{ChartSet, Random};

/// The lines of a listing that tell of one kind of thing.
fn lines(file: &[u8], word: &str) -> Vec<String> {
    listing(file).lines().filter(|line| line.starts_with(word)).map(String::from).collect()
}

#[test]
fn transitions_and_literals_show_their_guards() {
    let set = zero_watch();
    let transitions = [
        "transition 0: state 0 to state 1, priority 1, always, no guard",
        "transition 1: state 1 to state 2, priority 1, always, guard node 2 (v0<0)",
        "transition 2: state 1 to state 1, priority 2, event 0, no guard",
        "transition 3: state 2 to state 1, priority 1, event 1, no guard",
    ];
    assert_eq!(lines(&set, "transition"), transitions);
    let literals = lines(&twin(&ChartSet::read(&set).unwrap()), "literal");
    assert_eq!(
        literals[..3],
        [
            "literal 0: edge 0 must hold: always, no guard",
            "literal 1: edge 1 must hold: always, guard node 2 (v0<0)",
            "literal 2: edge 2 must not: always, guard node 2 (v0<0)",
        ]
    );
    let division = lines(&guarded_division(), "transition 1");
    assert!(division[0].ends_with("always, guard node 4 (1/v0==0)"), "{division:?}");
}

#[test]
fn actions_and_updates_show_the_guards_that_they_have() {
    let set = guards_in_sequence();
    let actions = [
        "action 0: transition 1: variable 1 := node 15, guard node 2 (v0==1)",
        "action 1: transition 1: variable 0 := node 16",
        "action 2: transition 1: variable 1 := node 11, guard node 5 (v0==1)",
        "action 3: transition 1: raise event 5, guard node 8 (v0==1)",
        "action 4: transition 2: variable 0 := node 17",
        "action 5: transition 4: variable 2 := node 14",
    ];
    assert_eq!(lines(&set, "action"), actions);
    let updates = lines(&twin(&ChartSet::read(&set).unwrap()), "update");
    let of_edges = actions.map(|line| line.replace("action", "update").replace(": transition", ": edge"));
    assert_eq!(updates, of_edges);
}

#[test]
fn waiting_actions_show_their_time() {
    let actions = [
        "action 0: waiting in state 1, every 300 ms: variable 0 := node 2",
        "action 1: entry of state 1: variable 0 := node 11",
        "action 2: waiting in state 1, every 300 ms: variable 1 := node 10, guard node 5 (v0<3)",
    ];
    assert_eq!(lines(&sees_while_waiting(), "action"), actions);
}

/// The nodes below one, by the numbers that stand in the file: another way to the tree than the simulator's own.
fn below(nodes: &[Node], root: u16) -> Vec<u16> {
    let mut found = vec![root];
    let mut at = 0;
    while at < found.len() {
        found.extend(node_operands(&nodes[usize::from(found[at])]));
        at += 1;
    }
    found.sort_unstable();
    found
}

/// What the writer makes of the nodes below a guard, cut out of the file and renumbered.
fn line_of(file: &[u8], root: u16) -> String {
    let records: Vec<_> =
        whole_records(file).iter().filter(|record| matches!(record[0], NODE | TWIN_NODE)).collect();
    let nodes: Vec<Node> = records.iter().map(|record| Node::read(record)).collect();
    let kept = below(&nodes, root);
    let mut cut: Vec<u8> = Vec::new();
    for number in &kept {
        let mut record = *records[usize::from(*number)];
        for (place, operand) in node_operands(&nodes[usize::from(*number)]).iter().enumerate() {
            let new = kept.binary_search(operand).unwrap() as u16;
            record[2 + 2 * place..][..2].copy_from_slice(&new.to_le_bytes());
        }
        cut.extend(record);
    }
    let mut text = vec![0; 16 * guards::MOST_NODES];
    let length = write_guard(&cut, &mut text);
    text.truncate(usize::try_from(length).expect("a tree"));
    String::from_utf8(text).unwrap()
}

#[test]
fn every_guard_is_shown_as_the_writer_writes_it() {
    let mut random = Random::new(31);
    let mut shown = [0; 4];
    for round in 0..800 {
        let (file, kind, word, at) = match round % 4 {
            0 => (any_valid_set(&mut random), TRANSITION, "transition", 12),
            1 => (tables::any_table(&mut random), LITERAL, "literal", 8),
            2 => (any_valid_set(&mut random), ACTION, "action", 8),
            _ => (tables::any_table(&mut random), UPDATE, "update", 8),
        };
        let of_deed = matches!(kind, ACTION | UPDATE);
        let records = whole_records(&file).iter().filter(|record| record[0] == kind);
        for (record, line) in records.zip(lines(&file, word)) {
            let stored = u16::from_le_bytes([record[at], record[at + 1]]);
            // An action's and update's guard stands there plus one, so that none is one below 0.
            let node = if of_deed { stored.wrapping_sub(1) } else { stored };
            if node == NONE {
                assert!(line.ends_with(", no guard") != of_deed && !line.contains(", guard"), "{line}");
                continue;
            }
            let guard = format!(", guard node {node} ({})", line_of(&file, node));
            assert!(line.ends_with(&guard), "{line} and {guard}");
            shown[round % 4] += 1;
        }
    }
    assert!(shown.iter().all(|times| *times > 500), "{shown:?}");
}
