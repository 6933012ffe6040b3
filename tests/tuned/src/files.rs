//! Records of 16 bytes as numbers of 128 bits: byte k of a record is bits 8k to 8k + 7.

use crate::Refusal;

pub const NONE: u16 = 65_535;

#[derive(Clone, Copy)]
pub struct Record(pub u128);

impl Record {
    #[inline(always)]
    pub fn of(kind: u8) -> Record {
        Record(u128::from(kind))
    }
    #[inline(always)]
    pub fn with_kind(self, kind: u8) -> Record {
        Record(self.0 & !0xff | u128::from(kind))
    }
    /// With a byte put where there was zero; so the next.
    #[inline(always)]
    pub fn with_byte(self, at: usize, value: u8) -> Record {
        Record(self.0 | u128::from(value) << (8 * at))
    }
    #[inline(always)]
    pub fn with_u16(self, at: usize, value: u16) -> Record {
        Record(self.0 | u128::from(value) << (8 * at))
    }
    #[inline(always)]
    pub fn byte(self, at: usize) -> u8 {
        (self.0 >> (8 * at)) as u8
    }
    #[inline(always)]
    pub fn u16(self, at: usize) -> u16 {
        (self.0 >> (8 * at)) as u16
    }
    #[inline(always)]
    pub fn i16(self, at: usize) -> i16 {
        self.u16(at) as i16
    }
    #[inline(always)]
    pub fn u32(self, at: usize) -> u32 {
        (self.0 >> (8 * at)) as u32
    }
    #[inline(always)]
    pub fn i32(self, at: usize) -> i32 {
        self.u32(at) as i32
    }
    /// The guard of an action or update, which has its node plus one, or 0, which becomes `NONE`.
    #[inline(always)]
    pub fn guard(self) -> u16 {
        self.u16(8).wrapping_sub(1)
    }
    /// Whether a byte outside the named ones is not zero.
    #[inline(always)]
    pub fn strays(self, named: u128) -> bool {
        self.0 & !named != 0
    }
}

/// Bytes `first` to `last` as a mask.
pub const fn span(first: u32, last: u32) -> u128 {
    let up_to = if last == 15 { u128::MAX } else { (1 << (8 * (last + 1))) - 1 };
    up_to & !((1 << (8 * first)) - 1)
}

#[inline(always)]
pub fn records(bytes: &[u8]) -> impl ExactSizeIterator<Item = Record> + Clone + '_ {
    bytes.as_chunks::<16>().0.iter().map(|chunk| Record(u128::from_le_bytes(*chunk)))
}

/// Refusals 1 to 3: the sections of a file whose kinds are those from `first` on, each with at most so many records.
#[inline]
pub fn sections<'a, const K: usize>(
    bytes: &'a [u8],
    first: u8,
    most: &[usize; K],
) -> Result<[&'a [u8]; K], Refusal> {
    if !bytes.len().is_multiple_of(16) {
        return Err(1);
    }
    // Each kind's records are one run, so a file is a row of runs whose kinds ascend.
    let chunks = bytes.as_chunks::<16>().0;
    let mut ends = [0usize; K];
    let mut at = 0;
    for (kind, end) in ends.iter_mut().enumerate() {
        let kind = first + kind as u8;
        at += chunks[at..].iter().position(|chunk| chunk[0] != kind).unwrap_or(chunks.len() - at);
        *end = at;
    }
    if at != chunks.len() {
        return Err(2);
    }
    let mut sections = [&bytes[..0]; K];
    let mut start = 0;
    for kind in 0..K {
        if ends[kind] - start > most[kind] || ends[0] == 0 {
            return Err(3);
        }
        sections[kind] = &bytes[16 * start..16 * ends[kind]];
        start = ends[kind];
    }
    Ok(sections)
}

/// What a pass over a section finds, whatever the record: refusals 4, 5 and 6.
#[derive(Clone, Copy, Default)]
pub struct Found {
    pub stray: bool,
    pub broken: bool,
    pub dangling: bool,
}

impl Found {
    pub fn anything(self) -> bool {
        self.stray | self.broken | self.dangling
    }
}

impl std::ops::BitOrAssign for Found {
    #[inline(always)]
    fn bitor_assign(&mut self, other: Found) {
        self.stray |= other.stray;
        self.broken |= other.broken;
        self.dangling |= other.dangling;
    }
}

/// Things by owner, in file order: those of owner k stand from `first[k]` to `first[k + 1]`.
pub struct Owned<T, const N: usize> {
    things: Vec<T>,
    first: [u16; N],
}

impl<T, const N: usize> Default for Owned<T, N> {
    fn default() -> Self {
        Owned { things: Vec::new(), first: [0; N] }
    }
}

impl<T: Copy + Default, const N: usize> Owned<T, N> {
    /// Sorts by counting; N is at least two more than there are owners.
    #[inline(always)]
    pub fn fill<U>(
        &mut self,
        owners: usize,
        given: impl Iterator<Item = U> + Clone,
        owner: impl Fn(&U) -> usize,
        thing: impl Fn(usize, U) -> T,
    ) {
        let first = &mut self.first[..owners + 2];
        first.fill(0);
        let mut count = 0;
        for one in given.clone() {
            first[owner(&one) + 2] += 1;
            count += 1;
        }
        for owner in 2..first.len() {
            first[owner] += first[owner - 1];
        }
        self.things.clear();
        self.things.resize(count, T::default());
        // Each owner's start is one place further on, and moves to its end as the owner is filled.
        for (number, one) in given.enumerate() {
            let place = &mut first[owner(&one) + 1];
            self.things[usize::from(*place)] = thing(number, one);
            *place += 1;
        }
    }

    #[inline(always)]
    pub fn of(&self, owner: usize) -> &[T] {
        &self.things[usize::from(self.first[owner])..usize::from(self.first[owner + 1])]
    }
}
