//! A file taken apart into records, to be changed and put together again.

use crate::random::Random;
use crate::records::{whole_records, Record, RECORD_LEN};

#[derive(Clone, Debug)]
pub struct RecordList {
    pub records: Vec<Record>,
    /// Bytes after the last whole record.
    pub rest: Vec<u8>,
}

impl RecordList {
    pub fn of(bytes: &[u8]) -> RecordList {
        let records = whole_records(bytes).to_vec();
        let rest = bytes[records.len() * RECORD_LEN..].to_vec();
        RecordList { records, rest }
    }

    pub fn bytes(&self) -> Vec<u8> {
        let mut bytes: Vec<u8> = self.records.iter().flatten().copied().collect();
        bytes.extend(&self.rest);
        bytes
    }

    pub fn count(&self, kind: u8) -> usize {
        self.records.iter().filter(|record| record[0] == kind).count()
    }

    /// The place in the list of the first record of a kind, if any.
    pub fn first(&self, kind: u8) -> Option<usize> {
        self.records.iter().position(|record| record[0] == kind)
    }

    /// The record of a kind by its number.
    pub fn get(&self, kind: u8, number: usize) -> Record {
        self.records[self.first(kind).expect("a record of the kind") + number]
    }

    pub fn set(&mut self, kind: u8, number: usize, record: Record) {
        let first = self.first(kind).expect("a record of the kind");
        self.records[first + number] = record;
    }

    /// The numbers of the records of a kind that fit.
    pub fn numbers(&self, kind: u8, fits: impl Fn(&Record) -> bool) -> Vec<usize> {
        let of_kind = self.records.iter().filter(|record| record[0] == kind);
        of_kind.enumerate().filter(|(_, record)| fits(record)).map(|(number, _)| number).collect()
    }

    /// One such number, if there is any.
    pub fn pick(&self, random: &mut Random, kind: u8, fits: impl Fn(&Record) -> bool) -> Option<usize> {
        let numbers = self.numbers(kind, fits);
        (!numbers.is_empty()).then(|| random.pick(&numbers))
    }

    /// Changes one fitting record of a kind; false if there is none.
    pub fn change(
        &mut self,
        random: &mut Random,
        kind: u8,
        fits: impl Fn(&Record) -> bool,
        change: impl FnOnce(&mut Random, &mut Record),
    ) -> bool {
        let Some(number) = self.pick(random, kind, fits) else {
            return false;
        };
        let mut record = self.get(kind, number);
        change(random, &mut record);
        self.set(kind, number, record);
        true
    }

    /// Adds a record as the last of its kind.
    pub fn append(&mut self, record: Record) {
        let at = self.records.iter().position(|other| other[0] > record[0]);
        self.records.insert(at.unwrap_or(self.records.len()), record);
    }

    /// Copies a record of the kind until there are `count`; a kind without any starts with zeros.
    pub fn fill(&mut self, kind: u8, count: usize) {
        let mut record = [0; RECORD_LEN];
        record[0] = kind;
        if let Some(first) = self.first(kind) {
            record = self.records[first];
        }
        while self.count(kind) < count {
            self.append(record);
        }
    }

    pub fn remove_kind(&mut self, kind: u8) {
        self.records.retain(|record| record[0] != kind);
    }
}

/// A byte other than zero.
pub fn not_zero(random: &mut Random) -> u8 {
    random.u8_between(1, 255)
}

/// One damage: the clause of the refusal table it breaks, and how. It gives false where the file
/// has nothing that can be damaged so; then the file is as it was.
pub struct Damage {
    pub number: u32,
    pub clause: &'static str,
    pub apply: fn(&mut Random, &mut RecordList) -> bool,
}

/// Damages 1 to 3, which charts and automata share but for their kinds and limits.
pub mod shared {
    use super::{not_zero, RecordList};
    use crate::random::Random;
    use crate::records::{write_i16, Record};

    pub fn partial_record(random: &mut Random, list: &mut RecordList) -> bool {
        list.rest = (0..1 + random.below(15)).map(|_| random.u8()).collect();
        true
    }

    pub fn shortened(random: &mut Random, list: &mut RecordList) -> bool {
        let Some(last) = list.records.pop() else {
            return false;
        };
        list.rest = last[..1 + random.below(15)].to_vec();
        true
    }

    pub fn descending(random: &mut Random, list: &mut RecordList) -> bool {
        let rises: Vec<usize> =
            (1..list.records.len()).filter(|at| list.records[at - 1][0] < list.records[*at][0]).collect();
        if rises.is_empty() {
            return false;
        }
        let at = random.pick(&rises);
        list.records.swap(at - 1, at);
        true
    }

    pub fn empty(_: &mut Random, list: &mut RecordList) -> bool {
        list.records.clear();
        true
    }

    /// Puts a value other than zero into one of the bytes.
    pub fn stray(random: &mut Random, record: &mut [u8; 16], bytes: &[usize]) {
        let at = random.pick(bytes);
        record[at] = not_zero(random);
    }

    pub fn any(_: &Record) -> bool {
        true
    }

    pub fn unnamed(random: &mut Random, list: &mut RecordList, kind: u8, bytes: &[usize]) -> bool {
        list.change(random, kind, any, |random, record| stray(random, record, bytes))
    }

    /// A byte that is not used under one of the codes.
    pub fn unused(
        random: &mut Random,
        list: &mut RecordList,
        kind: u8,
        at: usize,
        codes: &[u8],
        bytes: &[usize],
    ) -> bool {
        list.change(random, kind, |r| codes.contains(&r[at]), |random, record| stray(random, record, bytes))
    }

    pub fn byte(
        random: &mut Random,
        list: &mut RecordList,
        kind: u8,
        fits: fn(&Record) -> bool,
        at: usize,
        values: &[u8],
    ) -> bool {
        list.change(random, kind, fits, |random, record| record[at] = random.pick(values))
    }

    /// A variable's lowest, highest and start.
    pub fn range(random: &mut Random, list: &mut RecordList, kind: u8, values: &[(i16, i16, i16)]) -> bool {
        list.change(random, kind, any, |random, record| {
            let (lowest, highest, start) = random.pick(values);
            write_i16(record, 2, lowest);
            write_i16(record, 4, highest);
            write_i16(record, 6, start);
        })
    }
}
