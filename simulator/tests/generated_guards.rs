//! The generators of lines and lists of guards: each way is refused as meant; and what holds of whatever is read or written.

use simulator::generate::ways::Way;
use simulator::generate::{guard_line_damage, guard_lines, guard_list_damage, guard_lists};
use simulator::guards::{self, read_guard, write_guard, Tree, LONGEST_LINE, MOST_NODES};
use simulator::operators::{AND, OR, SUM};
use simulator::Random;
use std::collections::BTreeMap;

fn number(answer: i32) -> u32 {
    u32::try_from(-answer).unwrap_or(0)
}

/// Each of the ways so often: the numbers are those that the way may give, and each of them comes up.
fn try_ways(seed: u64, ways: &[&[Way]], rounds: usize, call: impl Fn(&[u8]) -> i32) {
    let mut random = Random::new(seed);
    for way in ways.iter().copied().flatten() {
        let mut met: BTreeMap<u32, usize> = BTreeMap::new();
        for _ in 0..rounds {
            let input = (way.make)(&mut random);
            let number = number(call(&input));
            assert!(
                way.numbers.contains(&number),
                "{}: {number} of {:?}",
                way.name,
                String::from_utf8_lossy(&input)
            );
            *met.entry(number).or_default() += 1;
        }
        println!("{}: {met:?}", way.name);
        assert!(way.numbers.iter().all(|number| met.contains_key(number)), "{}: {met:?}", way.name);
    }
}

#[test]
fn lines_are_refused_as_meant() {
    try_ways(41, &[guard_lines::WAYS, guard_line_damage::WAYS], 1_000, |line| {
        read_guard(line, &mut [0; 16 * LONGEST_LINE])
    });
}

#[test]
fn lists_are_refused_as_meant() {
    try_ways(42, &[guard_lists::WAYS, guard_list_damage::WAYS], 400, |list| {
        write_guard(list, &mut [0; 20 * MOST_NODES])
    });
}

/// Every operation in parentheses: a spelling for which nothing must be known of how tight operators bind.
fn in_full(tree: &Tree) -> String {
    let Tree::Operation(operator, operands) = tree else {
        return tree.text();
    };
    let texts: Vec<String> = operands.iter().map(in_full).collect();
    let sign = ["+", "-", "*", "/", "%", "?", "", "", "", "", "", "", "", "==", "<", "<=", "!", "&&", "||"];
    let sign = sign[usize::from(operator - SUM)];
    match &texts[..] {
        [only] => format!("({sign}{only})"),
        [left, right] => format!("({left}{sign}{right})"),
        [first, second, third] => format!("({first}{sign}{second}:{third})"),
        _ => unreachable!("one to three operands"),
    }
}

#[test]
fn the_reader_groups_as_parentheses_in_full_do() {
    let mut random = Random::new(43);
    let mut met = 0;
    for _ in 0..4_000 {
        let tree = guard_lines::fitting(&mut random);
        assert_eq!(guards::read(tree.text().as_bytes()), Ok(tree.clone()));
        let full = in_full(&tree);
        if full.len() <= LONGEST_LINE {
            assert_eq!(guards::read(full.as_bytes()), Ok(tree));
            met += 1;
        }
    }
    assert!(met > 1_000, "{met}");
}

/// The places of the parentheses that belong together.
fn pairs(line: &[u8]) -> Vec<(usize, usize)> {
    let (mut open, mut pairs) = (Vec::new(), Vec::new());
    for (at, byte) in line.iter().enumerate() {
        match byte {
            b'(' => open.push(at),
            b')' => pairs.push((open.pop().expect("an open one"), at)),
            _ => {}
        }
    }
    pairs
}

#[test]
fn no_written_pair_of_parentheses_can_be_left_out() {
    let mut random = Random::new(44);
    let mut tried = 0;
    for _ in 0..2_000 {
        let tree = guard_lines::fitting(&mut random);
        let line = tree.text().into_bytes();
        for (open, close) in pairs(&line) {
            let mut without = line.clone();
            without.remove(close);
            without.remove(open);
            assert_ne!(guards::read(&without), Ok(tree.clone()), "{}", tree.text());
            tried += 1;
        }
    }
    assert!(tried > 2_000, "{tried}");
}

/// What is read is written, no longer than it was; what is written and fits is read back, in the reader's numbering.
#[test]
fn round_trips() {
    let mut random = Random::new(45);
    for way in guard_lines::WAYS.iter().filter(|way| way.numbers == [0]) {
        for _ in 0..300 {
            let line = (way.make)(&mut random);
            let records = guards::records(&guards::read(&line).expect("a line"));
            let written = guards::checked(&records).expect("a tree").text();
            assert!(written.len() <= line.len());
            assert_eq!(guards::records(&guards::read(written.as_bytes()).expect("a line")), records);
        }
    }
    let mut met = [0; 2];
    for way in guard_lists::WAYS {
        for _ in 0..100 {
            let tree = guards::checked(&(way.make)(&mut random)).expect("a tree");
            let fits = tree.text().len() <= LONGEST_LINE;
            assert_eq!(guards::read(tree.text().as_bytes()), if fits { Ok(tree) } else { Err(22) });
            met[usize::from(fits)] += 1;
        }
    }
    assert!(met.iter().all(|times| *times > 100), "{met:?}");
}

#[test]
fn junctions_keep_their_own_parentheses() {
    for operator in [AND, OR] {
        let truth = |line: &str| guards::read(line.as_bytes()).expect("a line");
        let right = Tree::Operation(operator, vec![truth("v1<1"), truth("v2<2")]);
        let tree = Tree::Operation(operator, vec![truth("v0<0"), right]);
        assert_eq!(pairs(tree.text().as_bytes()).len(), 1, "{}", tree.text());
    }
}
