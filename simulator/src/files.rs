//! What both kinds of files share: refusals 1 to 4, read over the whole file, lowest first.

use crate::operators::{self, CONSTANT, VARIABLE_VALUE};
use crate::records::*;
use crate::refusals::{self, Refusal};

/// The bytes that the programs read of a file at once: more than the largest table has.
pub const READ_AT_ONCE: usize = 524_288;

/// A file whose length, kinds and counts are right, with its records by kind.
pub struct Sections<'a> {
    records: &'a [Record],
    limits: &'static [(u8, usize)],
}

impl<'a> Sections<'a> {
    /// Refusals 1, 2 and 3. A file of no bytes has no chart: 3.
    pub fn read(bytes: &'a [u8], limits: &'static [(u8, usize)]) -> Result<Self, Refusal> {
        if !bytes.len().is_multiple_of(RECORD_LEN) {
            return Err(refusals::LENGTH);
        }
        let sections = Sections { records: whole_records(bytes), limits };
        if !sections.kinds_known() || !sections.kinds_ascend() {
            return Err(refusals::KIND);
        }
        if sections.miscounted() {
            return Err(refusals::COUNT);
        }
        Ok(sections)
    }

    /// Records in ascending kinds, whatever their number.
    pub fn of_ascending(records: &'a [Record], limits: &'static [(u8, usize)]) -> Self {
        Sections { records, limits }
    }

    fn kinds_known(&self) -> bool {
        self.records.iter().all(|record| self.limits.iter().any(|(kind, _)| *kind == record[0]))
    }

    fn kinds_ascend(&self) -> bool {
        self.records.windows(2).all(|pair| pair[0][0] <= pair[1][0])
    }

    /// Nothing of the first kind, or too many of one.
    pub fn miscounted(&self) -> bool {
        self.of(self.limits[0].0).is_empty() || self.too_many()
    }

    fn too_many(&self) -> bool {
        self.limits.iter().any(|(kind, most)| self.of(*kind).len() > *most)
    }

    /// The records of one kind, in file order.
    pub fn of(&self, kind: u8) -> &'a [Record] {
        let from = self.records.partition_point(|record| record[0] < kind);
        let to = self.records.partition_point(|record| record[0] <= kind);
        &self.records[from..to]
    }

    /// Refusal 4 somewhere in the file.
    pub fn has_stray_byte(&self) -> bool {
        self.records.iter().any(stray_byte)
    }
}

/// An unnamed byte, or one unused under a known code, that is not zero.
pub fn stray_byte(record: &Record) -> bool {
    let named = named_bytes(record);
    (0..RECORD_LEN).any(|at| named & 1 << at == 0 && record[at] != 0)
}

/// The bytes of a record that may be other than zero, as a mask. Bytes whose use hangs on an
/// unknown code count as named, so that refusal 4 passes them over.
pub fn named_bytes(record: &Record) -> u16 {
    match record[0] {
        CHART | AUTOMATON => span(0, 0) | span(2, 3),
        STATE | LOCATION => span(0, 1),
        TRANSITION => span(0, 6) | span(12, 13) | transition_trigger_bytes(record[6]),
        VARIABLE | TWIN_VARIABLE => span(0, 0) | span(2, 7),
        NODE | TWIN_NODE => span(0, 1) | operator_bytes(record[1]),
        ACTION => span(0, 5) | span(8, 9) | deed_bytes(record[4]) | place_bytes(record[1]),
        EDGE => span(0, 6),
        LITERAL => span(0, 4) | span(8, 9) | literal_trigger_bytes(record[4]),
        CLOCK => span(0, 3),
        UPDATE => span(0, 4) | span(8, 9) | deed_bytes(record[1]),
        RESET => span(0, 0) | span(2, 5),
        _ => span(0, 15),
    }
}

fn transition_trigger_bytes(trigger: u8) -> u16 {
    match trigger {
        NO_TRIGGER => 0,
        ON_EVENT => span(7, 7),
        AFTER | EVERY => span(8, 11),
        _ => span(7, 11),
    }
}

fn literal_trigger_bytes(trigger: u8) -> u16 {
    match trigger {
        NO_TRIGGER => 0,
        ON_EVENT => span(5, 5),
        ON_CLOCK => span(6, 7),
        _ => span(5, 7),
    }
}

fn operator_bytes(operator: u8) -> u16 {
    match (operator, operators::shape(operator)) {
        (_, None) => span(2, 11),
        (CONSTANT, _) => span(8, 11),
        (VARIABLE_VALUE, _) => span(2, 3),
        (_, Some(shape)) => span(2, 1 + 2 * shape.operands.len()),
    }
}

/// Only a raise is known not to use the node's bytes 6-7.
fn deed_bytes(deed: u8) -> u16 {
    match deed {
        RAISE => 0,
        _ => span(6, 7),
    }
}

/// Only entry, exit and transition are known not to use the milliseconds' bytes 12-15.
fn place_bytes(place: u8) -> u16 {
    match place {
        ENTRY | EXIT | ON_TRANSITION => 0,
        _ => span(12, 15),
    }
}

fn span(first: usize, last: usize) -> u16 {
    (first..=last).map(|at| 1 << at).sum()
}
