//! Forms that accepted automata files have, most of them such as no twin has.

use crate::automata::AutomataTable;
use crate::node_rules::node_operands;
use crate::records::*;

pub const FORMS: [&str; 16] = [
    "literals out of order",
    "updates out of order",
    "resets out of order",
    "a guard of two literals",
    "a number of two updates",
    "an update with a guard",
    "a guard of two updates",
    "a guard of a literal and an update",
    "a guard or number that is an operand too",
    "a node without use",
    "an idle edge with updates",
    "an idle edge with resets",
    "a location that no edge leaves",
    "no open edge at the start",
    "two open edges at the start",
    "an edge without literals",
];

/// Those of the `FORMS` that a table has.
pub fn forms(bytes: &[u8], table: &AutomataTable) -> Vec<&'static str> {
    let start = table.start();
    let opened = |count: fn(usize) -> bool| {
        (0..table.automata()).any(|own| table.open_edges(&start, own).is_ok_and(|open| count(open.len())))
    };
    let guards = named(bytes, LITERAL, 8, |record| read_u16(record, 8) != NONE);
    let numbers = named(bytes, UPDATE, 6, |record| record[1] == ASSIGN);
    let conditions: Vec<u16> = of_kind(bytes, UPDATE).filter_map(deed_guard).collect();
    let operands: Vec<u16> = table.nodes.iter().flat_map(node_operands).copied().collect();
    let roots: Vec<u16> = [&guards[..], &numbers, &conditions].concat();
    let used = |node: u16| roots.contains(&node) || operands.contains(&node);
    let nodes = u16::try_from(table.nodes.len()).expect("at most 1,024");
    let has = [
        out_of_order(bytes, LITERAL),
        out_of_order(bytes, UPDATE),
        out_of_order(bytes, RESET),
        repeated(&guards),
        repeated(&numbers),
        !conditions.is_empty(),
        repeated(&conditions),
        conditions.iter().any(|node| guards.contains(node)),
        roots.iter().any(|node| operands.contains(node)),
        (0..nodes).any(|node| !used(node)),
        table.edges.iter().any(|edge| edge.idle && !edge.updates.is_empty()),
        table.edges.iter().any(|edge| edge.idle && !edge.resets.is_empty()),
        table.leaving.iter().any(Vec::is_empty),
        opened(|open| open == 0),
        opened(|open| open > 1),
        table.edges.iter().any(|edge| edge.literals.is_empty()),
    ];
    FORMS.into_iter().zip(has).filter(|(_, has)| *has).map(|(form, _)| form).collect()
}

fn of_kind(bytes: &[u8], kind: u8) -> impl Iterator<Item = &Record> {
    whole_records(bytes).iter().filter(move |record| record[0] == kind)
}

fn named(bytes: &[u8], kind: u8, at: usize, fits: fn(&Record) -> bool) -> Vec<u16> {
    of_kind(bytes, kind).filter(|record| fits(record)).map(|record| read_u16(record, at)).collect()
}

/// The edges of a kind's records do not ascend.
fn out_of_order(bytes: &[u8], kind: u8) -> bool {
    let edges: Vec<u16> = of_kind(bytes, kind).map(|record| read_u16(record, 2)).collect();
    edges.windows(2).any(|pair| pair[0] > pair[1])
}

fn repeated(nodes: &[u16]) -> bool {
    let mut sorted = nodes.to_vec();
    sorted.sort_unstable();
    sorted.windows(2).any(|pair| pair[0] == pair[1])
}
