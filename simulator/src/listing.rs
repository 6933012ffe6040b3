//! The listing of a file: a line for each record in file order, from the record formats of the scope paper. A thing has the number
//! of its record within its kind. A guard is told by its node and, in parentheses, as the line that the writer of guards makes of it;
//! an action or update without one says nothing of it.

use crate::expressions::Node;
use crate::guards::Tree;
use crate::operators::*;
use crate::records::*;

/// The lines of an accepted set or table.
pub fn listing(file: &[u8]) -> String {
    let mut lines = String::new();
    let nodes = nodes_of(file);
    for kind in whole_records(file).chunk_by(|a, b| a[0] == b[0]) {
        for (number, record) in kind.iter().enumerate() {
            lines += &format!("{} {number}: {}\n", word(record[0]), fields(record, &nodes));
        }
    }
    lines
}

fn nodes_of(file: &[u8]) -> Vec<Node> {
    let of_nodes = |record: &&Record| matches!(record[0], NODE | TWIN_NODE);
    whole_records(file).iter().filter(of_nodes).map(Node::read).collect()
}

fn word(kind: u8) -> &'static str {
    match kind {
        CHART => "chart",
        STATE => "state",
        TRANSITION => "transition",
        VARIABLE | TWIN_VARIABLE => "variable",
        NODE | TWIN_NODE => "node",
        ACTION => "action",
        AUTOMATON => "automaton",
        LOCATION => "location",
        EDGE => "edge",
        LITERAL => "literal",
        CLOCK => "clock",
        UPDATE => "update",
        RESET => "reset",
        _ => unreachable!("an accepted file"),
    }
}

fn fields(record: &Record, nodes: &[Node]) -> String {
    let two = |at: usize| read_u16(record, at);
    match record[0] {
        CHART => format!("initial state {}", two(2)),
        STATE => format!("chart {}", record[1]),
        TRANSITION => format!(
            "state {} to state {}, priority {}, {}, {}",
            two(2),
            two(4),
            record[1],
            trigger(record),
            guard(two(12), nodes)
        ),
        VARIABLE | TWIN_VARIABLE => {
            let value = |at: usize| read_i16(record, at);
            format!("{} to {}, start {}", value(2), value(4), value(6))
        }
        NODE | TWIN_NODE => operation(record),
        ACTION => {
            let done = deed(record[4], record[5], two(6));
            format!("{}: {done}{}", place(record), condition(record, nodes))
        }
        AUTOMATON => format!("initial location {}", two(2)),
        LOCATION => format!("automaton {}", record[1]),
        EDGE => {
            let idle = if record[6] == 1 { ", idle" } else { "" };
            format!("automaton {}, location {} to location {}{idle}", record[1], two(2), two(4))
        }
        LITERAL => {
            let sign = if record[1] == MUST_NOT { "must not" } else { "must hold" };
            format!("edge {} {sign}: {}, {}", two(2), cause(record), guard(two(8), nodes))
        }
        CLOCK => format!("{} {} ticks", timing(record[1]), two(2)),
        UPDATE => {
            let done = deed(record[1], record[4], two(6));
            format!("edge {}: {done}{}", two(2), condition(record, nodes))
        }
        RESET => format!("edge {}: clock {}", two(2), two(4)),
        _ => unreachable!("an accepted file"),
    }
}

fn timing(code: u8) -> &'static str {
    match code {
        AFTER => "after",
        EVERY => "every",
        _ => unreachable!("an accepted file"),
    }
}

fn trigger(transition: &Record) -> String {
    match transition[6] {
        NO_TRIGGER => String::from("always"),
        ON_EVENT => format!("event {}", transition[7]),
        code => format!("{} {} ms", timing(code), read_u32(transition, 8)),
    }
}

fn cause(literal: &Record) -> String {
    match literal[4] {
        NO_TRIGGER => String::from("always"),
        ON_EVENT => format!("event {}", literal[5]),
        ON_CLOCK => format!("clock {}", read_u16(literal, 6)),
        _ => unreachable!("an accepted file"),
    }
}

/// Each node of an accepted file is an operand at most once, so those below a guard are a tree.
fn guard(node: u16, nodes: &[Node]) -> String {
    if node == NONE {
        return String::from("no guard");
    }
    format!("guard node {node} ({})", Tree::of(nodes, usize::from(node)).text())
}

fn condition(action_or_update: &Record, nodes: &[Node]) -> String {
    deed_guard(action_or_update).map_or(String::new(), |node| format!(", {}", guard(node, nodes)))
}

fn place(action: &Record) -> String {
    let owner = read_u16(action, 2);
    match action[1] {
        ENTRY => format!("entry of state {owner}"),
        EXIT => format!("exit of state {owner}"),
        ON_TRANSITION => format!("transition {owner}"),
        WAITING => format!("waiting in state {owner}, every {} ms", read_u32(action, 12)),
        _ => unreachable!("an accepted file"),
    }
}

fn deed(code: u8, number: u8, node: u16) -> String {
    match code {
        ASSIGN => format!("variable {number} := node {node}"),
        RAISE => format!("raise event {number}"),
        _ => unreachable!("an accepted file"),
    }
}

fn operation(node: &Record) -> String {
    let [a, b, c] = [2, 4, 6].map(|at| read_u16(node, at));
    let sign = match node[1] {
        CONSTANT => return format!("constant {}", read_i32(node, 8)),
        VARIABLE_VALUE => return format!("variable {a}"),
        CHOICE => return format!("node {a} ? node {b} : node {c}"),
        NOT => return format!("not node {a}"),
        SUM => "+",
        DIFFERENCE => "-",
        PRODUCT => "*",
        QUOTIENT => "/",
        REMAINDER => "%",
        EQUAL => "=",
        LESS => "<",
        AT_MOST => "<=",
        AND => "and",
        OR => "or",
        _ => unreachable!("an accepted file"),
    };
    format!("node {a} {sign} node {b}")
}
