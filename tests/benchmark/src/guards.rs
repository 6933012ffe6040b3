//! Guards typed as a line: read into nodes, and written back. Both sides take the same bytes and keep nothing.

use crate::lines::{code, Answers, Line};
use crate::work::side;
use comparison::monuvaleck::{guard_read, guard_write};
use std::hint::black_box;
use tuned::{guard_reader, guard_writer, Refusal};

/// As a crew types it, and as long as a line may be: in breadth, and in depth.
fn inputs() -> [(&'static str, String); 4] {
    let terms: Vec<String> = (0..43).map(|term| format!("v{}<{}", term % 10, term % 9 + 1)).collect();
    let wide = terms.join("&&");
    let deep = format!("{}v1{}<0", "v0*(1+".repeat(36), ")".repeat(36));
    assert!(wide.len() == 256 && deep.len() == 256, "{} and {} bytes", wide.len(), deep.len());
    [
        ("shortest", "v0 < 0".into()),
        ("usual", "v1+2*v2<=100&&!(v3==0)".into()),
        ("wide", wide),
        ("deep", deep),
    ]
}

/// Such a call of a side, from bytes into bytes.
type Proved = fn(&[u8], &mut [u8]) -> i32;
type Tuned = fn(&[u8], &mut [u8]) -> Result<usize, Refusal>;

fn line(
    (input, work): (&'static str, &'static str),
    units: usize,
    given: Vec<u8>,
    room: usize,
    (proved, tuned): (Proved, Tuned),
) -> Line {
    let start = (Answers::default(), vec![0; room]);
    let copy = given.clone();
    Line {
        input,
        work,
        units,
        proved: side(start.clone(), move |(answers, out), units| {
            (0..units).for_each(|_| answers.add(proved(black_box(&given), out)));
        }),
        tuned: side(start, move |(answers, out), units| {
            (0..units).for_each(|_| answers.add(code(tuned(black_box(&copy), out), |count| count as i32)));
        }),
        kept: None,
    }
}

/// One part in so many of the whole work.
pub fn lines(part: usize) -> Vec<Line> {
    let mut lines = Vec::new();
    for (input, text) in inputs() {
        let text = text.into_bytes();
        let units = 4_000_000 / text.len() / part;
        let mut nodes = vec![0; 16 * text.len()];
        let count = guard_reader::read(&text, &mut nodes).expect("a guard");
        nodes.truncate(16 * count);
        let room = nodes.len();
        lines.push(line((input, "guards read"), units, text, room, (guard_read, guard_reader::read)));
        lines.push(line((input, "guards written"), units, nodes, 256, (guard_write, guard_writer::write)));
    }
    lines
}
