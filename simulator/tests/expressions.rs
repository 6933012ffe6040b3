//! The expression layer: exact ends, order, what is not touched, and the convention for any bytes.

use simulator::assemble::{constant, file, node, operation, variable_value};
use simulator::expressions::{number, truth, Node};
use simulator::generate::expression_files::{
    arbitrary, extreme, node_numbers, steps, values, well_formed, MOST_STEPS,
};
use simulator::operators::*;
use simulator::records::{whole_records, NODE};
use simulator::Random;
use std::collections::BTreeMap;

const MIN: i32 = i32::MIN;
const MAX: i32 = i32::MAX;

fn bytes(nodes: &[Node]) -> Vec<u8> {
    file(nodes.iter().map(|one| node(NODE, one)))
}

fn of_two(operator: u8, left: i32, right: i32) -> Result<i32, u32> {
    number(&bytes(&[constant(left), constant(right), operation(operator, &[0, 1])]), &[0; 64], 2)
}

fn truth_of_two(operator: u8, left: i32, right: i32) -> bool {
    truth(&bytes(&[constant(left), constant(right), operation(operator, &[0, 1])]), &[0; 64], 2).unwrap()
}

#[test]
fn arithmetic_has_exact_ends() {
    assert_eq!(of_two(SUM, MAX, 0), Ok(MAX));
    assert_eq!(of_two(SUM, MAX, 1), Err(15));
    assert_eq!(of_two(SUM, MIN, -1), Err(15));
    assert_eq!(of_two(DIFFERENCE, MIN, 1), Err(15));
    assert_eq!(of_two(DIFFERENCE, -1, MIN), Ok(MAX));
    assert_eq!(of_two(DIFFERENCE, 0, MIN), Err(15));
    assert_eq!(of_two(PRODUCT, 65_536, 32_768), Err(15));
    assert_eq!(of_two(PRODUCT, -65_536, 32_768), Ok(MIN));
    assert_eq!(of_two(PRODUCT, MIN, -1), Err(15));
    assert_eq!(of_two(PRODUCT, 46_340, 46_340), Ok(2_147_395_600));
    assert_eq!(of_two(PRODUCT, 46_341, 46_341), Err(15));
}

#[test]
fn division_goes_toward_zero() {
    let cases =
        [(-3, 2, -1, -1), (3, -2, -1, 1), (-3, -2, 1, -1), (3, 2, 1, 1), (-7, 7, -1, 0), (MIN, 1, MIN, 0)];
    for (a, b, quotient, remainder) in cases {
        assert_eq!(of_two(QUOTIENT, a, b), Ok(quotient), "{a} by {b}");
        assert_eq!(of_two(REMAINDER, a, b), Ok(remainder), "{a} by {b}");
    }
    assert_eq!(of_two(QUOTIENT, MIN, -1), Err(15));
    assert_eq!(of_two(REMAINDER, MIN, -1), Ok(0));
    for dividend in [0, 1, -1, MIN, MAX] {
        assert_eq!(of_two(QUOTIENT, dividend, 0), Err(16));
        assert_eq!(of_two(REMAINDER, dividend, 0), Err(16));
    }
}

#[test]
fn comparisons_are_signed() {
    assert!(truth_of_two(LESS, -3, 2) && !truth_of_two(LESS, 2, -3) && !truth_of_two(LESS, 2, 2));
    assert!(truth_of_two(AT_MOST, 2, 2) && truth_of_two(AT_MOST, MIN, MAX) && !truth_of_two(AT_MOST, 3, 2));
    assert!(truth_of_two(EQUAL, -3, -3) && !truth_of_two(EQUAL, -3, 3));
}

/// 0..2 overflow with 15, 3..5 divide by zero with 16, 6..8 are true, 9..11 false.
fn faulting(last: Node) -> Vec<u8> {
    bytes(&[
        constant(MAX),
        constant(1),
        operation(SUM, &[0, 1]),
        constant(1),
        constant(0),
        operation(QUOTIENT, &[3, 4]),
        constant(1),
        constant(1),
        operation(EQUAL, &[6, 7]),
        constant(1),
        constant(2),
        operation(EQUAL, &[9, 10]),
        constant(5),
        operation(EQUAL, &[2, 12]),
        last,
    ])
}

#[test]
fn operands_go_left_to_right_and_the_first_fault_ends_it() {
    for operator in [SUM, DIFFERENCE, PRODUCT, QUOTIENT, REMAINDER] {
        assert_eq!(number(&faulting(operation(operator, &[2, 5])), &[0; 64], 14), Err(15));
        assert_eq!(number(&faulting(operation(operator, &[5, 2])), &[0; 64], 14), Err(16));
    }
    for operator in [EQUAL, LESS, AT_MOST] {
        assert_eq!(truth(&faulting(operation(operator, &[2, 5])), &[0; 64], 14), Err(15));
        assert_eq!(truth(&faulting(operation(operator, &[5, 2])), &[0; 64], 14), Err(16));
    }
    // The operand's fault comes before the zero divisor is seen.
    assert_eq!(number(&faulting(operation(QUOTIENT, &[2, 4])), &[0; 64], 14), Err(15));
}

#[test]
fn choice_and_or_touch_only_what_they_need() {
    let choice = |operands: &[u16]| number(&faulting(operation(CHOICE, operands)), &[0; 64], 14);
    assert_eq!(choice(&[8, 12, 5]), Ok(5));
    assert_eq!(choice(&[11, 5, 12]), Ok(5));
    assert_eq!(choice(&[11, 12, 5]), Err(16));
    assert_eq!(choice(&[13, 12, 5]), Err(15), "the truth faults first");
    let junction = |operator, operands: &[u16]| truth(&faulting(operation(operator, operands)), &[0; 64], 14);
    assert_eq!(junction(AND, &[11, 13]), Ok(false));
    assert_eq!(junction(AND, &[8, 13]), Err(15));
    assert_eq!(junction(AND, &[13, 11]), Err(15));
    assert_eq!(junction(OR, &[8, 13]), Ok(true));
    assert_eq!(junction(OR, &[11, 13]), Err(15));
    assert_eq!(junction(OR, &[11, 8]), Ok(true));
    assert_eq!(junction(AND, &[8, 11]), Ok(false));
    assert_eq!(junction(NOT, &[8]), Ok(false));
    assert_eq!(junction(NOT, &[11]), Ok(true));
}

#[test]
fn any_bytes_have_a_value() {
    let mut variables = [0; 64];
    variables[63] = -7;
    assert_eq!(number(&[], &variables, 0), Ok(0));
    assert_eq!(truth(&[], &variables, 65_535), Ok(false));
    assert_eq!(number(&bytes(&[variable_value(63)]), &variables, 0), Ok(-7));
    assert_eq!(number(&bytes(&[variable_value(64)]), &variables, 0), Ok(0));
    assert_eq!(number(&bytes(&[operation(9, &[])]), &variables, 0), Ok(0));
    // The other sort: a truth operator as a number, a number operator as a truth.
    let sorts = bytes(&[constant(3), constant(3), operation(EQUAL, &[0, 1])]);
    assert_eq!((number(&sorts, &variables, 2), truth(&sorts, &variables, 2)), (Ok(0), Ok(true)));
    assert_eq!(truth(&sorts, &variables, 0), Ok(false));
    // Operands not lower are not touched.
    let own = bytes(&[constant(3), operation(SUM, &[0, 1]), operation(NOT, &[2]), operation(NOT, &[7])]);
    assert_eq!(number(&own, &variables, 1), Ok(3));
    assert_eq!(truth(&own, &variables, 2), Ok(true));
    assert_eq!(truth(&own, &variables, 3), Ok(true));
    // A constant cut after its first byte: the missing bytes read 0.
    let cut = &bytes(&[constant(0x0102_0304)])[..9];
    assert_eq!(number(cut, &variables, 0), Ok(4));
}

/// A second evaluator, straight from the bytes and in 128 bits, for accepted operand orders.
fn by_hand(bytes: &[u8], variables: &[i16; 64], at: usize) -> Result<i128, u32> {
    let record = whole_records(bytes)[at];
    let word = |from: usize| usize::from(record[from]) + 256 * usize::from(record[from + 1]);
    let value = |place: usize| by_hand(bytes, variables, word(2 + 2 * place));
    let exact = match record[1] {
        1 => i128::from(i32::from_le_bytes(record[8..12].try_into().unwrap())),
        2 => i128::from(variables[word(2)]),
        operator @ (3..=7 | 16..=18) => {
            let (a, b) = (value(0)?, value(1)?);
            match operator {
                3 => a + b,
                4 => a - b,
                5 => a * b,
                6 | 7 if b == 0 => return Err(16),
                6 => a.abs() / b.abs() * a.signum() * b.signum(),
                7 => a.abs() % b.abs() * a.signum(),
                16 => i128::from(a == b),
                17 => i128::from(a < b),
                _ => i128::from(a <= b),
            }
        }
        8 => {
            if value(0)? != 0 {
                value(1)?
            } else {
                value(2)?
            }
        }
        19 => 1 - value(0)?,
        20 => {
            if value(0)? == 0 {
                0
            } else {
                value(1)?
            }
        }
        _ => {
            if value(0)? == 1 {
                1
            } else {
                value(1)?
            }
        }
    };
    if (-(1i128 << 31)..1 << 31).contains(&exact) {
        Ok(exact)
    } else {
        Err(15)
    }
}

#[test]
fn well_formed_lists_agree_with_a_second_evaluator() {
    let mut random = Random::new(5);
    let mut tally: BTreeMap<(bool, u32), usize> = BTreeMap::new();
    let mut deepest = 0;
    for round in 0..3_000 {
        let bytes = if round % 3 == 0 { extreme(&mut random) } else { well_formed(&mut random) };
        let values = values(&mut random);
        deepest = deepest.max(bytes.len() / 16);
        let last = bytes.len() / 16 - 1;
        for at in [last, random.below(last + 1), random.below(last + 1)] {
            let node = u16::try_from(at).unwrap();
            let expected = by_hand(&bytes, &values, at);
            let is_truth = bytes[16 * at + 1] >= 16;
            let found = if is_truth {
                truth(&bytes, &values, node).map(i128::from)
            } else {
                number(&bytes, &values, node).map(i128::from)
            };
            assert_eq!(found, expected, "round {round}, node {at}");
            *tally.entry((is_truth, found.err().unwrap_or(0))).or_default() += 1;
        }
    }
    assert_eq!(deepest, 1_024);
    for outcome in [(false, 0), (false, 15), (false, 16), (true, 0), (true, 15), (true, 16)] {
        assert!(tally.get(&outcome).copied().unwrap_or(0) > 20, "{outcome:?} came up too seldom: {tally:?}");
    }
}

/// Whether some division of the lowest number by -1 stands in an extreme list.
fn lowest_by_minus_one(bytes: &[u8], operator: u8) -> bool {
    whole_records(bytes).windows(3).any(|three| {
        let constant = |at: usize| i32::from_le_bytes(three[at][8..12].try_into().unwrap());
        three[0][1] == 1
            && constant(0) == MIN
            && three[1][1] == 1
            && constant(1) == -1
            && three[2][1] == operator
    })
}

#[test]
fn extreme_lists_divide_the_lowest_number_by_minus_one() {
    let mut random = Random::new(6);
    let lists: Vec<Vec<u8>> = (0..5_000).map(|_| extreme(&mut random)).collect();
    assert!(lists.iter().any(|bytes| lowest_by_minus_one(bytes, QUOTIENT)));
    assert!(lists.iter().any(|bytes| lowest_by_minus_one(bytes, REMAINDER)));
}

#[test]
fn evaluation_of_any_bytes_ends() {
    let mut random = Random::new(7);
    let mut outcomes: BTreeMap<String, usize> = BTreeMap::new();
    for _ in 0..4_000 {
        let bytes = arbitrary(&mut random);
        assert!(steps(&bytes) <= MOST_STEPS);
        let values = values(&mut random);
        for node in node_numbers(&mut random, &bytes) {
            let found = number(&bytes, &values, node);
            let shown = found.map_or_else(|fault| fault.to_string(), |value| (value != 0).to_string());
            *outcomes.entry(format!("number {shown}")).or_default() += 1;
            let found = truth(&bytes, &values, node);
            let shown = found.map_or_else(|fault| fault.to_string(), |value| value.to_string());
            *outcomes.entry(format!("truth {shown}")).or_default() += 1;
        }
    }
    for outcome in [
        "number true",
        "number false",
        "number 15",
        "number 16",
        "truth true",
        "truth false",
        "truth 15",
        "truth 16",
    ] {
        assert!(
            outcomes.get(outcome).copied().unwrap_or(0) > 10,
            "{outcome} came up too seldom: {outcomes:?}"
        );
    }
}
