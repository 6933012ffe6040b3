//! The writer of guards: its checks of the list, its parentheses, its buffers, and lines read back.

use simulator::assemble::{constant, file, node, operation, variable_value};
use simulator::expressions::Node;
use simulator::guards::{read_guard, write_guard};
use simulator::operators::*;
use simulator::records::NODE;

const FILL: u8 = 0xA5;

fn bytes(nodes: &[Node]) -> Vec<u8> {
    file(nodes.iter().map(|one| node(NODE, one)))
}

/// The line of some records, or the refusal's number. What lies beyond is kept, and on a refusal everything.
fn written(records: &[u8]) -> Result<String, i32> {
    let mut text = vec![FILL; 20_000];
    let answer = write_guard(records, &mut text);
    let length = usize::try_from(answer).unwrap_or(0);
    assert!(text[length..].iter().all(|byte| *byte == FILL));
    if answer < 0 {
        return Err(-answer);
    }
    text.truncate(length);
    Ok(String::from_utf8(text).unwrap())
}

fn write(nodes: &[Node]) -> Result<String, i32> {
    written(&bytes(nodes))
}

/// What the writer makes of a line that is read.
fn again(line: &str) -> String {
    let mut nodes = vec![0; 256 * 16];
    let count = read_guard(line.as_bytes(), &mut nodes);
    let count = usize::try_from(count).unwrap_or_else(|_| panic!("{line}: {count}"));
    written(&nodes[..16 * count]).unwrap()
}

/// `v0<0`, to be changed.
fn watch() -> [Node; 3] {
    [variable_value(0), constant(0), operation(LESS, &[0, 1])]
}

#[test]
fn parentheses_stand_only_where_they_change_the_tree() {
    for line in [
        "v0<0",
        "v1+2*v2<=100&&!(v3==0)",
        "1+(2+3)<4",
        "1-(2-3)-4<5",
        "1*(2/3)%4<5",
        "(1+2)*3<4*(5-6)",
        "v0--3<0",
        "-3--3<-3*-3",
        "v0--2147483648<0",
        "(v0<1?2:3)<4",
        "1+(v0<1?2:3)<4",
        "(v0<1?2:3)+1<4",
        "(v0<1?v1<2?3:4:v2<5?6:7)<8",
        "(v0<1&&v1<2||v2<3?1:2)==3",
        "!!(v0<1)",
        "!(v0<1&&v1<2)&&!(v2<3)",
        "v0<1||(v1<2||v2<3)",
        "v0<1&&(v1<2&&v2<3)",
        "(v0<1||v1<2)&&v2<3",
        "v0<1||v1<2&&v2<3",
        "2*(v0<1?2:3)<0",
    ] {
        assert_eq!(again(line), line);
    }
}

#[test]
fn parentheses_and_spaces_that_change_nothing_are_left_out() {
    for (line, expected) in [
        (" ( v0 < 0 ) ", "v0<0"),
        ("(1+2)+3<4", "1+2+3<4"),
        ("(1*2)+(3/4)<(5)", "1*2+3/4<5"),
        ("((v0<1)&&(v1<2))||(v2<3)", "v0<1&&v1<2||v2<3"),
        ("!(!(v0<1))", "!!(v0<1)"),
        ("(v0<1?(v1<2?3:4):(v2<5?6:7))<8", "(v0<1?v1<2?3:4:v2<5?6:7)<8"),
        ("((v0<1||v1<2)?(1+2):(3))<4", "(v0<1||v1<2?1+2:3)<4"),
        ("v0 - (-3) < (-0)", "v0--3<0"),
    ] {
        assert_eq!(again(line), expected);
    }
}

/// Operators by their level, numbers and truths apart: parentheses are needed under a tighter one, and on the right under an equal one.
#[test]
fn every_operator_under_every_other() {
    let numbers = [(SUM, 1), (DIFFERENCE, 1), (PRODUCT, 2), (QUOTIENT, 2), (REMAINDER, 2)];
    let leaves = [variable_value(0), constant(1)];
    for (outer, tight) in numbers {
        for (inner, loose) in numbers {
            let end = [constant(0), operation(LESS, &[4, 5])];
            let left =
                [&leaves[..], &[operation(inner, &[0, 1]), constant(2), operation(outer, &[2, 3])], &end]
                    .concat();
            let line = write(&left).unwrap();
            assert_eq!(line.contains('('), loose < tight, "{line}");
            let right =
                [&[constant(2)], &leaves[..], &[operation(inner, &[1, 2]), operation(outer, &[0, 3])], &end];
            let line = write(&right.concat()).unwrap();
            assert_eq!(line.contains('('), loose <= tight, "{line}");
        }
    }
}

#[test]
fn five_then_six_then_eight() {
    let changed = |at: usize, to: Node| {
        let mut nodes = watch();
        nodes[at] = to;
        write(&nodes)
    };
    for operator in [0, 9, 15, 22, 255] {
        assert_eq!(changed(0, operation(operator, &[])), Err(5));
        assert_eq!(changed(2, operation(operator, &[900, 900])), Err(5));
    }
    assert_eq!(changed(0, variable_value(64)), Err(6));
    assert_eq!(changed(0, variable_value(65_535)), Err(6));
    assert_eq!(changed(0, variable_value(63)), Ok("v63<0".into()));
    // From the own number up to the count less one is 8, from the count on 6.
    assert_eq!(changed(2, operation(LESS, &[0, 2])), Err(8));
    assert_eq!(changed(1, operation(SUM, &[0, 1])), Err(8));
    assert_eq!(changed(1, operation(SUM, &[0, 2])), Err(8));
    assert_eq!(changed(2, operation(LESS, &[0, 3])), Err(6));
    assert_eq!(changed(2, operation(LESS, &[65_535, 1])), Err(6));
    // Asked of the whole list, the lowest number first.
    assert_eq!(write(&[operation(NOT, &[9]), operation(200, &[])]), Err(5));
    assert_eq!(write(&[operation(NOT, &[0]), variable_value(64)]), Err(6));
}

#[test]
fn more_nodes_than_a_set_holds() {
    let negations = |count: u16| {
        let mut nodes = watch().to_vec();
        nodes.extend((2..count - 1).map(|below| operation(NOT, &[below])));
        nodes
    };
    assert_eq!(write(&negations(1_024)), Ok(format!("{}(v0<0)", "!".repeat(1_021))));
    assert_eq!(write(&negations(1_025)), Err(3));
    let mut unknown = negations(1_025);
    unknown[0].operator = 0;
    assert_eq!(write(&unknown), Err(3), "before 5");
    let whole = bytes(&negations(1_024));
    assert_eq!(written(&[&whole[..], &[9; 15]].concat()).map(|line| line.len()), Ok(1_027));
    assert_eq!(written(&[&whole[..], &[9; 16]].concat()), Err(3));
}

#[test]
fn lists_that_are_no_tree() {
    let (v, one) = (variable_value(0), constant(1));
    let less = |a: u16, b: u16| operation(LESS, &[a, b]);
    assert_eq!(written(&[]), Err(8), "no node");
    assert_eq!(written(&[7; 15]), Err(8), "no whole record");
    assert_eq!(write(&[v]), Err(8), "a root that is no truth");
    assert_eq!(write(&[v, one, operation(SUM, &[0, 1])]), Err(8), "a root that is no truth");
    assert_eq!(write(&[v, less(0, 0)]), Err(8), "a node used twice");
    assert_eq!(write(&[v, one, less(0, 1), operation(AND, &[2, 2])]), Err(8), "a node used twice");
    assert_eq!(write(&[v, one, one, less(0, 2)]), Err(8), "a node never used");
    assert_eq!(write(&[v, one, less(0, 1), v, one, less(3, 4)]), Err(8), "two trees");
    assert_eq!(write(&[v, one, less(0, 1), v]), Err(8), "the root is the last node");
    assert_eq!(write(&[v, one, less(0, 1), operation(NOT, &[3])]), Err(8), "the root used");
    assert_eq!(write(&[operation(NOT, &[1]), operation(NOT, &[0])]), Err(8), "a ring");
    assert_eq!(write(&[operation(NOT, &[0])]), Err(8), "a ring of one");
    assert_eq!(write(&[less(1, 2), v, one]), Err(8), "right in all but the order");
    assert_eq!(write(&[v, operation(NOT, &[2]), less(0, 3), one]), Err(8), "right in all but the order");
    // Of the wrong sort.
    assert_eq!(write(&[v, operation(NOT, &[0])]), Err(8));
    assert_eq!(write(&[v, one, less(0, 1), one, less(2, 3)]), Err(8));
    assert_eq!(write(&[v, one, less(0, 1), one, operation(OR, &[2, 3])]), Err(8));
    assert_eq!(write(&[v, one, one, operation(CHOICE, &[0, 1, 2]), one, less(3, 4)]), Err(8));
}

#[test]
fn any_order_with_operands_lower() {
    let nodes = [constant(0), variable_value(0), operation(LESS, &[1, 0])];
    assert_eq!(write(&nodes), Ok("v0<0".into()));
    let nodes = [
        constant(4),
        constant(2),
        constant(3),
        constant(1),
        operation(SUM, &[1, 2]),
        operation(SUM, &[3, 4]),
        operation(LESS, &[5, 0]),
    ];
    assert_eq!(write(&nodes), Ok("1+(2+3)<4".into()));
    assert_ne!(bytes(&nodes), {
        let mut read = vec![0; 7 * 16];
        assert_eq!(read_guard(b"1+(2+3)<4", &mut read), 7);
        read
    });
}

/// The writer looks at operator, operands and constant alone: not at the kind, nor at what an operator does not use.
#[test]
fn what_an_operator_does_not_use_is_not_looked_at() {
    let mut records = bytes(&watch());
    for record in records.chunks_mut(16) {
        record[0] = 77;
        record[12..].fill(0xEE);
        let unused: &[usize] = match record[1] {
            CONSTANT => &[2, 3, 4, 5, 6, 7],
            VARIABLE_VALUE => &[4, 5, 6, 7, 8, 9, 10, 11],
            _ => &[6, 7, 8, 9, 10, 11],
        };
        unused.iter().for_each(|at| record[*at] = 0xFF);
    }
    assert_eq!(written(&records), Ok("v0<0".into()));
    records.extend([1, 2, 3]);
    assert_eq!(written(&records), Ok("v0<0".into()));
}

#[test]
fn buffers_exact_and_short() {
    let records = bytes(&watch());
    for room in [4, 5, 40] {
        let mut text = vec![FILL; room];
        assert_eq!(write_guard(&records, &mut text), 4);
        assert_eq!(text, [&b"v0<0"[..], &vec![FILL; room - 4]].concat());
    }
    for room in 0..4 {
        let mut text = vec![FILL; room];
        assert_eq!(write_guard(&records, &mut text), -24);
        assert_eq!(text, vec![FILL; room]);
    }
    // The list's number comes before that of the buffer.
    assert_eq!(write_guard(&records[..32], &mut []), -8);
    assert_eq!(write_guard(&[0; 48], &mut []), -5);
}

#[test]
fn more_than_256_bytes_may_be_written() {
    let mut nodes = watch().to_vec();
    for term in 0..100u16 {
        let (last, first) = (nodes.len() as u16 - 1, nodes.len() as u16);
        nodes.extend([variable_value(term % 64), constant(i32::MIN), operation(LESS, &[first, first + 1])]);
        nodes.push(operation(AND, &[last, first + 2]));
    }
    let line = write(&nodes).unwrap();
    assert!(line.len() > 1_500 && line.starts_with("v0<0&&v0<-2147483648&&v1<-2147483648&&"));
    assert_eq!(read_guard(line.as_bytes(), &mut vec![0; 16 * nodes.len()]), -22);
}
