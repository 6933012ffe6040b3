//! The reader of guards typed as a line: the sentences of document 02 and of the readings of its open points.

use simulator::assemble::{constant, file, node, operation, variable_value};
use simulator::expressions::Node;
use simulator::guards::read_guard;
use simulator::operators::*;
use simulator::records::NODE;

const FILL: u8 = 0xA5;

/// The records of a line, or its refusal's number. What lies beyond is kept, and on a refusal everything.
fn read(line: impl AsRef<[u8]>) -> Result<Vec<u8>, i32> {
    let mut nodes = vec![FILL; 300 * 16];
    let answer = read_guard(line.as_ref(), &mut nodes);
    let written = 16 * usize::try_from(answer).unwrap_or(0);
    assert!(nodes[written..].iter().all(|byte| *byte == FILL));
    if answer < 0 {
        return Err(-answer);
    }
    nodes.truncate(written);
    Ok(nodes)
}

fn bytes(nodes: &[Node]) -> Vec<u8> {
    file(nodes.iter().map(|one| node(NODE, one)))
}

/// A comparison of one number with a constant.
fn compared(number: &[Node], operator: u8, value: i32) -> Vec<u8> {
    let mut nodes = number.to_vec();
    let last = u16::try_from(nodes.len()).unwrap();
    nodes.extend([constant(value), operation(operator, &[last - 1, last])]);
    bytes(&nodes)
}

fn difference(value: i32) -> [Node; 3] {
    [variable_value(0), constant(value), operation(DIFFERENCE, &[0, 1])]
}

fn all_refused(number: i32, lines: &[&str]) {
    for line in lines {
        assert_eq!(read(line), Err(number), "{line:?}");
    }
}

/// Lines that have one tree.
fn same(lines: &[&str]) {
    for line in lines {
        assert!(read(line).is_ok() && read(line) == read(lines[0]), "{line:?} and {:?}", lines[0]);
    }
}

#[test]
fn nodes_are_numbered_operands_first_left_to_right() {
    let expected: [[u8; 16]; 3] = [
        [5, 2, 0, 0, 0, 0, 0, 0, 0, 0, 0, 0, 0, 0, 0, 0],
        [5, 1, 0, 0, 0, 0, 0, 0, 0, 0, 0, 0, 0, 0, 0, 0],
        [5, 17, 0, 0, 1, 0, 0, 0, 0, 0, 0, 0, 0, 0, 0, 0],
    ];
    assert_eq!(read("v0<0"), Ok(expected.concat()));
    let mixed = bytes(&[
        variable_value(1),
        constant(2),
        variable_value(2),
        operation(PRODUCT, &[1, 2]),
        operation(SUM, &[0, 3]),
        constant(100),
        operation(AT_MOST, &[4, 5]),
        variable_value(3),
        constant(0),
        operation(EQUAL, &[7, 8]),
        operation(NOT, &[9]),
        operation(AND, &[6, 10]),
    ]);
    assert_eq!(read("v1+2*v2<=100&&!(v3==0)"), Ok(mixed));
    let choice = [
        variable_value(0),
        constant(1),
        operation(LESS, &[0, 1]),
        constant(2),
        variable_value(63),
        operation(CHOICE, &[2, 3, 4]),
    ];
    assert_eq!(read("(v0<1?2:v63)==7"), Ok(compared(&choice, EQUAL, 7)));
}

#[test]
fn each_level_binds_tighter_than_the_next() {
    same(&["!!(v0<1)&&v1<2", "(!(!(v0<1)))&&(v1<2)"]);
    same(&["v0+v1*v2<0", "(v0+(v1*v2))<0"]);
    same(&["v0/v1-v2%3<0", "((v0/v1)-(v2%3))<0"]);
    same(&["v0+1<v1-1", "(v0+1)<(v1-1)"]);
    same(&["v0<1||v1<2&&v2==3", "(v0<1)||((v1<2)&&(v2==3))"]);
    same(&["v0<1&&v1<2||v2==3", "((v0<1)&&(v1<2))||(v2==3)"]);
    same(&["(v0<1||v1<2?3:4)<5", "(((v0<1)||(v1<2))?3:4)<5"]);
    same(&["(v0<1?2:3+4)<5", "(v0<1?2:(3+4))<5"]);
}

#[test]
fn equal_levels_group_to_the_left_and_the_choice_to_the_right() {
    same(&["1-2+3-4<0", "((1-2)+3)-4<0"]);
    same(&["8/4*2%3<0", "((8/4)*2)%3<0"]);
    same(&["v0<1&&v1<1&&v2<1", "(v0<1&&v1<1)&&v2<1"]);
    same(&["v0<1||v1<1||v2<1", "(v0<1||v1<1)||v2<1"]);
    same(&["(v0<1?1:v1<1?2:3)<0", "(v0<1?1:(v1<1?2:3))<0"]);
    same(&["(v0<1?v1<1?2:3:4)<0", "(v0<1?(v1<1?2:3):4)<0"]);
    assert_ne!(read("1-(2+3)<0"), read("1-2+3<0"));
    assert_ne!(read("((v0<1?1:v1<1)?2:3)<0"), read("(v0<1?1:v1<1?2:3)<0"));
}

#[test]
fn a_minus_goes_by_what_stands_before_it() {
    assert_eq!(read("v0-3<0"), Ok(compared(&difference(3), LESS, 0)));
    assert_eq!(read("v0--3<0"), Ok(compared(&difference(-3), LESS, 0)));
    same(&["v0-3<0", "(v0)-3<0", "v0 -3<0", "v0- 3<0", "v0 - 3 <0"]);
    same(&["v0--3<0", "v0- -3<0", "v0 - -3<0"]);
    same(&["-3<v0", "(-3)<v0", " -3 <v0"]);
    assert_eq!(read("v0<-3"), Ok(compared(&[variable_value(0)], LESS, -3)));
    same(&["(v0<1?-2:-3)<-4", "(v0<1?(-2):(-3))<(-4)"]);
    assert_eq!(read("v0-3"), Err(23), "a difference, which is a number");
    all_refused(
        22,
        &["- 3<v0", "-v0<0", "-(3)<v0", "--3<v0", "v0---3<0", "v0<- 3", "v0--v1<0", "v0<-", "!-v0<0"],
    );
}

#[test]
fn numbers_have_no_leading_zeros_and_thirty_two_bits() {
    assert_eq!(read("v0<-0"), read("v0<0"));
    let refused =
        ["00", "01", "-00", "-01", "v01", "v00", "v64", "v100", "v", "V0", "v-1", "v18446744073709551616"];
    for number in refused {
        all_refused(
            22,
            &[number, &format!("{number}<0"), &format!("v0<{number}"), &format!("v0-{number}<0")],
        );
    }
    for (line, value) in [("2147483647", i32::MAX), ("-2147483648", i32::MIN), ("-2147483647", -i32::MAX)] {
        assert_eq!(read(format!("v0<{line}")), Ok(compared(&[variable_value(0)], LESS, value)));
    }
    all_refused(22, &["v0<2147483648", "v0<-2147483649", "v0<4294967296", "v0<18446744073709551617"]);
    // After the operator minus the number is a positive one.
    assert_eq!(read("v0-2147483648<0"), Err(22));
    assert_eq!(read("v0--2147483648<0"), Ok(compared(&difference(i32::MIN), LESS, 0)));
    assert_eq!(read("v63<0"), Ok(compared(&[variable_value(63)], LESS, 0)));
}

#[test]
fn spaces_stand_anywhere_but_inside_a_token() {
    same(&["v1+2*v2<=100&&!(v3==0)", " v1 + 2 * v2 <= 100 && ! ( v3 == 0 ) ", "v1+2 *v2<= 100&&!(v3==0)   "]);
    same(&["(v0<1?2:3)<4", "( v0 < 1 ? 2 : 3 ) < 4"]);
    all_refused(
        22,
        &["v 0<0", "v0< =0", "v0= =0", "v0<0& &v1<0", "v0<0| |v1<0", "v0<1 0", "v1 0<0", "", " ", "   "],
    );
    for byte in [0, 9, 10, 11, 12, 13, 31, 127, 128, 160, 255] {
        for line in
            [[b'v', b'0', b'<', b'0', byte], [b'v', b'0', byte, b'<', b'0'], [byte, b'v', b'0', b'<', b'0']]
        {
            assert_eq!(read(line), Err(22), "byte {byte}");
        }
    }
}

#[test]
fn lines_outside_the_grammar() {
    all_refused(22, &["v0<0)", "(v0<0", "()", "(", ")", "((v0<0)", "(v0<0))"]);
    all_refused(
        22,
        &["v0<", "<0", "v0<0&&", "&&v0<0", "v0<0&v1<0", "v0<0|v1<0", "v0=0", "v0===0", "v0<==0", "v0!=0"],
    );
    all_refused(
        22,
        &["v0>0", "v0>=0", "v0<>0", "~v0<0", "v0<0;", "true", "+3<v0", "v0+<0", "v0*/2<0", "v0 v1<0"],
    );
    all_refused(
        22,
        &["v0<0?1", "(v0<0?1)<2", "(v0<0?:1)<2", "(v0<0?1:)<2", "(v0<0:1)<2", "?1:2", "(?1:2)<3"],
    );
    all_refused(22, &["v0<0!", "!", "v0!<0", "(v0<0)(v1<0)", "v0(1)<0", "1v0<0", "v0v1<0", ")v0<0(", "()<0"]);
}

#[test]
fn wrong_sorts_and_numbers_as_the_whole_line() {
    all_refused(23, &["v0", "3", "-3", "(v0)", "v0+1", "v0-3", "v0<0?1:2", "v0<1<2", "v0==1==2", "v0<(1<2)"]);
    all_refused(
        23,
        &["!v0<3", "!v0", "!-3", "!3<0", "v0&&v1<0", "v0<0||v1", "v0+(v1<0)<0", "(v0<0)*2<0", "v0%!v1<0"],
    );
    all_refused(
        23,
        &["(v0?1:2)<3", "(v0<0?v1<0:2)<3", "(v0<0?1:v1<0)<3", "v0<0?v1<0:v2<0", "1?2:3", "!(v0<0?1:2)"],
    );
    // A wrong sort deep in the line, with truths around it.
    all_refused(23, &["v0<0&&(v1<2||!(v3<4+(v5<6)))", "v0<1&&v1<2<3"]);
}

#[test]
fn twenty_two_then_twenty_three_then_twenty_four() {
    for (line, number) in
        [("v0+1)", 22), ("v0<1<2 ?", 22), ("!v0<99999999999", 22), ("v0+1", 23), ("v0<1<2", 23), ("v0<1", 24)]
    {
        for room in [0, 15, 47] {
            let mut nodes = vec![FILL; room];
            assert_eq!(read_guard(line.as_bytes(), &mut nodes), -number, "{line} into {room} bytes");
            assert_eq!(nodes, vec![FILL; room]);
        }
    }
}

#[test]
fn room_is_counted_in_whole_records() {
    let exact = read("v0<0").unwrap();
    for room in [48, 49, 63, 64, 80] {
        let mut nodes = vec![FILL; room];
        assert_eq!(read_guard(b"v0<0", &mut nodes), 3);
        assert_eq!(nodes[..48], exact);
        assert_eq!(nodes[48..], vec![FILL; room - 48]);
    }
}

#[test]
fn a_line_has_up_to_256_bytes() {
    let padded = |length: usize| format!("{:>1$}", "v0<0", length);
    assert_eq!(read(padded(256)), read("v0<0"));
    assert_eq!(read(padded(257)), Err(22));
    assert_eq!(read(format!("{:<256}", "v0<0")), read("v0<0"));
    assert_eq!(read(format!("{:<257}", "v0<0")), Err(22));
    let nested = |depth: usize| format!("{}v0<0{}", "(".repeat(depth), ")".repeat(depth));
    assert_eq!(read(nested(126)), read("v0<0"));
    assert_eq!(read(nested(127)), Err(22));
    assert_eq!(read("(".repeat(256)), Err(22));
    assert_eq!(read("!".repeat(256)), Err(22));
    let negated = |times: usize| format!("{}(v0<0)", "!".repeat(times));
    assert_eq!(read(negated(250)).unwrap().len(), 253 * 16);
    assert_eq!(read(format!("{}v0", "!".repeat(254))), Err(23));
    assert_eq!(read(negated(251)), Err(22));
    let sum = format!("{}0<0", "0+".repeat(126));
    assert_eq!((sum.len(), read(&sum).unwrap().len()), (255, 255 * 16));
}
