//! The expression layer on generated nodes, well formed and of any bytes: values, faults, sorts, order and use.

use simulator::expressions::{decode, Node};
use simulator::generate::expression_files as files;
use simulator::node_rules::{gives, names_something, node_operands};
use simulator::operators::{shape, Sort};
use simulator::Random;

/// How often each outcome was met: values, then faults by 15 and by 16.
#[derive(Default, Debug)]
struct Met {
    numbers: [usize; 3],
    truths: [usize; 3],
}

fn place<T>(outcome: &Result<T, u32>) -> usize {
    match outcome {
        Ok(_) => 0,
        Err(15) => 1,
        Err(16) => 2,
        Err(other) => panic!("no fault of an expression: {other}"),
    }
}

fn compare(random: &mut Random, nodes: &[u8], met: &mut Met) -> usize {
    let values = files::values(random);
    let asked = files::node_numbers(random, nodes);
    for &node in &asked {
        let number = simulator::expressions::number(nodes, &values, node);
        assert_eq!(comparison::number(nodes, &values, node), number, "number {node} of {nodes:?}");
        met.numbers[place(&number)] += 1;
        let truth = simulator::expressions::truth(nodes, &values, node);
        assert_eq!(comparison::truth(nodes, &values, node), truth, "truth {node} of {nodes:?}");
        met.truths[place(&truth)] += 1;
    }
    asked.len()
}

fn compare_many(seed: u64, enough: usize, make: fn(&mut Random) -> Vec<u8>) -> Met {
    let mut random = Random::new(seed);
    let mut met = Met::default();
    let mut compared = 0;
    while compared < enough {
        let nodes = make(&mut random);
        compared += compare(&mut random, &nodes, &mut met);
    }
    println!("{compared} expressions compared, 0 differences: {met:?}");
    met
}

#[test]
fn well_formed_expressions_agree() {
    let met = compare_many(5, 120_000, files::well_formed);
    assert!(met.numbers.iter().chain(&met.truths).all(|n| *n > 500), "{met:?}");
}

#[test]
fn extreme_operands_agree() {
    let met = compare_many(6, 60_000, files::extreme);
    assert!(met.numbers.iter().all(|n| *n > 500), "{met:?}");
}

#[test]
fn any_bytes_agree() {
    let met = compare_many(7, 120_000, files::arbitrary);
    assert!(met.numbers.iter().chain(&met.truths).all(|n| *n > 100), "{met:?}");
}

/// Node n, also past the end, where there is none.
fn node_of(nodes: &[Node], n: usize) -> Option<&Node> {
    nodes.get(n).filter(|node| shape(node.operator).is_some())
}

fn fits(nodes: &[Node], n: usize) -> bool {
    node_of(nodes, n).is_none_or(|node| {
        let sorts = shape(node.operator).expect("known").operands;
        let operands = node_operands(node).iter().map(|operand| usize::from(*operand));
        operands.zip(sorts).all(|(operand, sort)| operand < n && gives(nodes, operand, *sort))
    })
}

#[test]
fn sorts_order_and_use_agree() {
    let mut random = Random::new(8);
    let mut fitting = [0; 2];
    let mut named = [0; 2];
    for _ in 0..20_000 {
        let bytes =
            if random.chance(1, 2) { files::well_formed(&mut random) } else { files::arbitrary(&mut random) };
        let nodes = decode(&bytes);
        let size = nodes.len() + random.below(3);
        let variables = random.pick(&[0, 1, 63, 64]);
        let size16 = u16::try_from(size).expect("few nodes");

        let right = (0..size).all(|n| fits(&nodes, n));
        assert_eq!(comparison::operands_fit(&bytes, size16), right, "order of {bytes:?}");
        fitting[usize::from(right)] += 1;

        let right =
            (0..size).all(|n| node_of(&nodes, n).is_none_or(|node| names_something(node, size, variables)));
        assert_eq!(comparison::nodes_named(&bytes, size16, variables as u16), right, "names of {bytes:?}");
        named[usize::from(right)] += 1;

        let n = random.below(size + 1);
        let sort = node_of(&nodes, n).and_then(|node| shape(node.operator)).map(|shape| shape.gives);
        assert_eq!(comparison::is_number(&bytes, n as u16), sort == Some(Sort::Number));
        assert_eq!(comparison::is_truth(&bytes, n as u16), sort == Some(Sort::Truth));

        compare_uses(&mut random, &bytes, &nodes, size16);
    }
    assert!(fitting.iter().chain(&named).all(|n| *n > 200), "order {fitting:?}, names {named:?}");
}

fn compare_uses(random: &mut Random, bytes: &[u8], nodes: &[Node], size: u16) {
    let places = random.pick(&[1, 16, 1_024]);
    let mut right = vec![0; places];
    for operand in nodes.iter().filter(|node| shape(node.operator).is_some()).flat_map(node_operands) {
        if let Some(uses) = right.get_mut(usize::from(*operand)) {
            *uses = 2.min(*uses + 1);
        }
    }
    let mut uses = vec![0; places];
    comparison::count_operands(bytes, size, &mut uses);
    assert_eq!(uses, right, "uses in {bytes:?}");
}
