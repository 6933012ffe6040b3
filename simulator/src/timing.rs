//! Ticks, the rules of after and every, and the clocks that stand for a state's age.

use crate::records::AFTER;
use std::cmp::Ordering;

/// Milliseconds a tick, which is one cycle.
pub const TICK_MILLISECONDS: u32 = 100;
pub const HALF_TICK_MILLISECONDS: u32 = TICK_MILLISECONDS / 2;

/// The cycles a run may do.
pub const MOST_CYCLES: u32 = 1_000_000;

#[derive(Clone, Copy, Debug, PartialEq, Eq)]
pub enum Timing {
    After,
    Every,
}

impl Timing {
    pub fn of_trigger(trigger: u8) -> Timing {
        if trigger == AFTER {
            Timing::After
        } else {
            Timing::Every
        }
    }
}

/// Milliseconds / 100 to the nearest, exact halves to the even tick.
pub fn ticks(milliseconds: u32) -> u32 {
    let below = milliseconds / TICK_MILLISECONDS;
    let past = milliseconds % TICK_MILLISECONDS;
    match past.cmp(&HALF_TICK_MILLISECONDS) {
        Ordering::Less => below,
        Ordering::Equal if below.is_multiple_of(2) => below,
        Ordering::Equal | Ordering::Greater => below + 1,
    }
}

/// After d holds at age d and at every later age until the state is left; every d at positive
/// multiples of d.
pub fn timing_holds(timing: Timing, age: u32, ticks: u32) -> bool {
    match timing {
        Timing::After => age >= ticks,
        Timing::Every => age > 0 && age.is_multiple_of(ticks),
    }
}

#[derive(Clone, Copy, Debug, PartialEq, Eq)]
pub struct Clock {
    pub timing: Timing,
    pub ticks: u16,
}

impl Clock {
    /// The highest value a clock takes: an after-clock stops at its ticks, an every-clock turns there.
    pub fn top(&self) -> u16 {
        self.ticks
    }

    /// A clock trigger holds at clock = ticks.
    pub fn holds(&self, value: u16) -> bool {
        value == self.ticks
    }

    /// The clock after position n + 1: an after-clock stays at its top, an every-clock goes
    /// from its top to 1.
    pub fn grown(&self, value: u16) -> u16 {
        match self.timing {
            Timing::After => (value + 1).min(self.top()),
            Timing::Every if value == self.ticks => 1,
            Timing::Every => value + 1,
        }
    }

    /// Where the clock stands when the present state's age is `age`.
    pub fn at_age(&self, age: u32) -> u16 {
        let value = match self.timing {
            Timing::After => age.min(u32::from(self.top())),
            Timing::Every if age == 0 => 0,
            Timing::Every => (age - 1) % u32::from(self.ticks) + 1,
        };
        u16::try_from(value).expect("at most the clock's top")
    }
}
