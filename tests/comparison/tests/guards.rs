//! Guards typed as a line: lines read and lists of nodes written, valid and damaged in each way, byte for byte, into buffers
//! exact, a byte short, longer and empty; and round trips of what was read and written.

use comparison::met::Met;
use comparison::monuvaleck::{guard_read, guard_write};
use simulator::generate::buffers::{bytes, lengths, FILL};
use simulator::generate::ways::Way;
use simulator::generate::{guard_line_damage, guard_lines, guard_list_damage, guard_lists};
use simulator::guards::{checked, read_guard, records, write_guard, LONGEST_LINE, MOST_NODES};
use simulator::records::RECORD_LEN;
use simulator::Random;

/// One of the two calls, on both sides.
struct Call {
    proved: fn(&[u8], &mut [u8]) -> i32,
    right: fn(&[u8], &mut [u8]) -> i32,
    /// How many bytes one of those that are answered takes.
    unit: usize,
    /// Room for whatever can be answered.
    enough: usize,
}

const READ: Call =
    Call { proved: guard_read, right: read_guard, unit: RECORD_LEN, enough: RECORD_LEN * LONGEST_LINE };
const WRITE: Call = Call { proved: guard_write, right: write_guard, unit: 1, enough: 20 * MOST_NODES };

/// Bytes behind what is lent, which no one may touch.
const BEHIND: usize = 40;

impl Call {
    /// The answer of both sides. Bytes beyond it are kept, and on a refusal all of them.
    fn compare(&self, input: &[u8], lent: usize) -> i32 {
        let (mut mine, mut right) = (bytes(lent + BEHIND), bytes(lent + BEHIND));
        let answer = (self.proved)(input, &mut mine[..lent]);
        let expected = (self.right)(input, &mut right[..lent]);
        assert_eq!(answer, expected, "into {lent} bytes of {}", input.escape_ascii());
        assert!(mine == right, "other bytes, into {lent} of {}", input.escape_ascii());
        let written = self.unit * usize::try_from(answer).unwrap_or(0);
        assert!(mine[written..].iter().all(|byte| *byte == FILL));
        answer
    }

    /// What is answered into a buffer that is large enough, of the proved side.
    fn given(&self, input: &[u8]) -> Result<Vec<u8>, i32> {
        let mut out = bytes(self.enough);
        let answer = (self.proved)(input, &mut out);
        out.truncate(self.unit * usize::try_from(answer).map_err(|_| answer)?);
        Ok(out)
    }

    /// Into enough room, and then around what it needs; a refused input into little.
    fn compare_into_all(&self, random: &mut Random, input: &[u8], met: &mut Met) -> i32 {
        let answer = self.compare(input, self.enough);
        let Ok(exact) = usize::try_from(answer) else {
            met.add(format!("{}", -answer));
            for lent in [0, 1 + random.below(100)] {
                assert_eq!(self.compare(input, lent), answer, "before 24");
            }
            return answer;
        };
        met.add("done");
        let exact = self.unit * exact;
        for lent in lengths(random, exact) {
            let answer = self.compare(input, lent);
            assert_eq!(answer == -24, lent < exact);
            met.add(match lent {
                0 => "an empty buffer",
                _ if lent + 1 == exact => "a byte short",
                _ if lent < exact => "short",
                _ if lent == exact => "exact",
                _ => "longer",
            });
            if answer < 0 {
                met.add(format!("{}", -answer));
            }
        }
        answer
    }
}

/// Each way so often; `also` is told of what is accepted.
fn compare_ways(
    (call, seed, rounds): (&Call, u64, usize),
    ways: [&[Way]; 2],
    also: impl Fn(&[u8], &mut Met),
) -> Met {
    let mut random = Random::new(seed);
    let mut met = Met::default();
    for way in ways.into_iter().flatten() {
        for _ in 0..rounds {
            let input = (way.make)(&mut random);
            let answer = call.compare_into_all(&mut random, &input, &mut met);
            let number = u32::try_from(-answer).unwrap_or(0);
            assert!(way.numbers.contains(&number), "{}: {number}", way.name);
            met.add("inputs");
            if answer >= 0 {
                also(&input, &mut met);
            }
        }
    }
    met
}

/// What is read is written, in no more bytes than it had, and read again as the same nodes.
fn written_again(line: &[u8], met: &mut Met) {
    let nodes = READ.given(line).expect("a line that is read");
    let text = WRITE.given(&nodes).expect("what is read is written");
    assert!(text.len() <= line.len());
    assert_eq!(READ.given(&text), Ok(nodes), "{}", line.escape_ascii());
    met.add(if text == line { "round trips: the same line" } else { "round trips: a shorter line" });
}

/// What is written is read as its tree in the reader's numbering, if it fits.
fn read_again(list: &[u8], met: &mut Met) {
    let text = WRITE.given(list).expect("a list that is written");
    let tree = records(&checked(list).expect("a list that is written"));
    if text.len() > LONGEST_LINE {
        assert_eq!(READ.given(&text), Err(-22));
        met.add("round trips: too long");
        return;
    }
    assert!(READ.given(&text) == Ok(tree.clone()), "{}", text.escape_ascii());
    let same = list.get(..tree.len()) == Some(&tree);
    met.add(if same { "round trips: the same nodes" } else { "round trips: nodes renumbered" });
}

#[test]
fn lines_read() {
    let ways = [guard_lines::WAYS, guard_line_damage::WAYS];
    let met = compare_ways((&READ, 111, 3_000), ways, written_again);
    println!("lines read: {:#?}", met.0);
    met.at_least(100_000, &["inputs"]);
    met.at_least(10_000, &["done", "22", "23", "24"]);
    met.at_least(10_000, &["exact", "a byte short", "longer", "an empty buffer"]);
    met.at_least(1_000, &["round trips: the same line", "round trips: a shorter line"]);
}

#[test]
fn lists_written() {
    let ways = [guard_lists::WAYS, guard_list_damage::WAYS];
    let met = compare_ways((&WRITE, 112, 800), ways, read_again);
    println!("lists written: {:#?}", met.0);
    met.at_least(20_000, &["inputs"]);
    met.at_least(2_000, &["done", "3", "5", "6", "8", "24"]);
    met.at_least(2_000, &["exact", "a byte short", "longer", "an empty buffer"]);
    met.at_least(
        800,
        &["round trips: the same nodes", "round trips: nodes renumbered", "round trips: too long"],
    );
}

/// All lines of up to four bytes out of some that say much.
#[test]
fn short_lines_read() {
    let mut met = Met::default();
    let mut lines = vec![Vec::new()];
    for _ in 0..4 {
        let longer = |line: &Vec<u8>| b"v01-<=&|!?:( )".map(|byte| [&line[..], &[byte]].concat());
        lines = lines.iter().flat_map(longer).collect();
        for line in &lines {
            met.add(READ.compare(line, READ.enough).min(0).to_string());
        }
    }
    println!("short lines read: {:#?}", met.0);
    met.at_least(50, &["0", "-22", "-23"]);
}

/// Lines of each length around the longest, and of every byte in the place of one.
#[test]
fn ends_of_lines() {
    for length in 0..=300 {
        let padded = [&vec![b' '; length][..], b"v0<0"].concat();
        let answer = READ.compare(&padded, READ.enough);
        assert_eq!(answer, if padded.len() <= LONGEST_LINE { 3 } else { -22 });
    }
    for byte in 0..=255 {
        for at in 0..4 {
            let mut line = *b"v0<0";
            line[at] = byte;
            READ.compare(&line, READ.enough);
        }
        READ.compare(&[b'v', b'0', b'<', b'0', byte], READ.enough);
    }
    assert_eq!(READ.compare(&[b' '; 100_000], READ.enough), -22);
}
