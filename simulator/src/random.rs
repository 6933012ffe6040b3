//! A small seeded generator (splitmix64): the same seed gives the same cases everywhere.

#[derive(Clone, Debug)]
pub struct Random {
    state: u64,
}

impl Random {
    pub fn new(seed: u64) -> Random {
        Random { state: seed }
    }

    pub fn next_u64(&mut self) -> u64 {
        self.state = self.state.wrapping_add(0x9E37_79B9_7F4A_7C15);
        let mut mixed = self.state;
        mixed = (mixed ^ (mixed >> 30)).wrapping_mul(0xBF58_476D_1CE4_E5B9);
        mixed = (mixed ^ (mixed >> 27)).wrapping_mul(0x94D0_49BB_1331_11EB);
        mixed ^ (mixed >> 31)
    }

    /// A number below `end`, which is not zero.
    pub fn below(&mut self, end: usize) -> usize {
        let end = u64::try_from(end).expect("a count");
        usize::try_from(self.next_u64() % end).expect("below a count")
    }

    /// A number from `low` to `high`, both included.
    pub fn between(&mut self, low: i64, high: i64) -> i64 {
        let span = u64::try_from(high - low).expect("low is not above high") + 1;
        low + i64::try_from(self.next_u64() % span).expect("a small span")
    }

    /// True `times` in `of` cases on average.
    pub fn chance(&mut self, times: usize, of: usize) -> bool {
        self.below(of) < times
    }

    pub fn pick<T: Copy>(&mut self, from: &[T]) -> T {
        from[self.below(from.len())]
    }

    pub fn u8(&mut self) -> u8 {
        self.next_u64().to_le_bytes()[0]
    }

    /// From `low` to `high`, both included.
    pub fn u8_between(&mut self, low: u8, high: u8) -> u8 {
        u8::try_from(self.between(i64::from(low), i64::from(high))).expect("between two bytes")
    }

    pub fn u16_between(&mut self, low: u16, high: u16) -> u16 {
        u16::try_from(self.between(i64::from(low), i64::from(high))).expect("between two words")
    }

    pub fn i16_between(&mut self, low: i16, high: i16) -> i16 {
        i16::try_from(self.between(i64::from(low), i64::from(high))).expect("between two values")
    }

    pub fn u32_between(&mut self, low: u32, high: u32) -> u32 {
        u32::try_from(self.between(i64::from(low), i64::from(high))).expect("between two words")
    }

    /// A number below a count of at most 65,536 things.
    pub fn index(&mut self, count: usize) -> u16 {
        u16::try_from(self.below(count)).expect("a number of 16 bits")
    }

    pub fn shuffle<T>(&mut self, things: &mut [T]) {
        for last in (1..things.len()).rev() {
            let other = self.below(last + 1);
            things.swap(last, other);
        }
    }
}
