//! Lines of guards read and lists of nodes written, into short and long buffers: the answers of the simulator, and its buffers
//! after each call.

use simulator::generate::ways::Way;
use simulator::generate::{buffers, guard_line_damage, guard_lines, guard_list_damage, guard_lists};
use simulator::guards::{read_guard, write_guard};
use simulator::Random;
use std::collections::BTreeMap;
use tuned::{guard_reader, guard_writer, Refusal};

/// The answer of both sides, into so many bytes with others behind them, which no one may touch.
fn compare(
    input: &[u8],
    lent: usize,
    tuned: fn(&[u8], &mut [u8]) -> Result<usize, Refusal>,
    right: fn(&[u8], &mut [u8]) -> i32,
) -> i32 {
    let (mut mine, mut theirs) = (buffers::bytes(lent + 40), buffers::bytes(lent + 40));
    let answer = tuned(input, &mut mine[..lent]).map_or_else(|number| -(number as i32), |count| count as i32);
    assert_eq!(
        answer,
        right(input, &mut theirs[..lent]),
        "into {lent} of {:?}",
        input.escape_ascii().to_string()
    );
    assert!(mine == theirs, "other bytes, into {lent} of {:?}", input.escape_ascii().to_string());
    answer
}

/// Each way so often, into large buffers and, where the input is accepted, into those around what it needs; units are bytes.
fn compare_ways(
    seed: u64,
    ways: [&[Way]; 2],
    rounds: usize,
    unit: usize,
    call: impl Fn(&[u8], usize) -> i32,
) -> BTreeMap<i32, usize> {
    let mut random = Random::new(seed);
    let mut met = BTreeMap::new();
    for way in ways.into_iter().flatten() {
        for _ in 0..rounds {
            let input = (way.make)(&mut random);
            let answer = call(&input, 30_000);
            *met.entry(answer.min(0)).or_default() += 1;
            let lengths = match usize::try_from(answer) {
                Ok(exact) => buffers::lengths(&mut random, unit * exact),
                Err(_) => vec![0, 50],
            };
            for lent in lengths {
                *met.entry(call(&input, lent).min(0)).or_default() += 1;
            }
        }
    }
    println!("{met:?}");
    met
}

#[test]
fn lines() {
    let call = |line: &[u8], lent| compare(line, lent, guard_reader::read, read_guard);
    let met = compare_ways(111, [guard_lines::WAYS, guard_line_damage::WAYS], 1_500, 16, call);
    assert!([0, -22, -23, -24].iter().all(|answer| met[answer] > 2_000), "{met:?}");
}

#[test]
fn lists() {
    let call = |list: &[u8], lent| compare(list, lent, guard_writer::write, write_guard);
    let met = compare_ways(112, [guard_lists::WAYS, guard_list_damage::WAYS], 300, 1, call);
    assert!([0, -3, -5, -6, -8, -24].iter().all(|answer| met[answer] > 500), "{met:?}");
}

/// All lines of up to four bytes out of some that say much.
#[test]
fn short_lines() {
    let bytes = b"v01-<=&|!?:( )";
    let mut met = BTreeMap::<i32, usize>::new();
    let mut lines = vec![Vec::new()];
    for _ in 0..4 {
        let longer = |line: &Vec<u8>| bytes.map(|byte| [&line[..], &[byte]].concat());
        lines = lines.iter().flat_map(longer).collect();
        for line in &lines {
            *met.entry(compare(line, 96, guard_reader::read, read_guard).min(0)).or_default() += 1;
        }
    }
    println!("{met:?}");
    assert!([0, -22, -23].iter().all(|answer| met.contains_key(answer)), "{met:?}");
}
