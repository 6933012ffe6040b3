//! Milliseconds of the timing triggers of valid sets.

use crate::random::Random;
use crate::records::MOST_MILLISECONDS;
use crate::timing::{HALF_TICK_MILLISECONDS, TICK_MILLISECONDS};

/// The least that is a tick: half a tick is as near to 0, which is even.
const LEAST_MILLISECONDS: u32 = HALF_TICK_MILLISECONDS + 1;

/// From so many whole ticks up to the next, moved to the range's ends where it would lie outside. Exact halves come in a
/// third of the cases, as only they show where a half goes, and their neighbours in a sixth.
pub fn time_from(random: &mut Random, whole_ticks: u32) -> u32 {
    let past = match random.below(12) {
        0..=3 => HALF_TICK_MILLISECONDS,
        4 => HALF_TICK_MILLISECONDS - 1,
        5 => HALF_TICK_MILLISECONDS + 1,
        _ => random.u32_between(0, TICK_MILLISECONDS - 1),
    };
    (whole_ticks * TICK_MILLISECONDS + past).clamp(LEAST_MILLISECONDS, MOST_MILLISECONDS)
}
