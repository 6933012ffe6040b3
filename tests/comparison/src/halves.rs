//! Times of a set that are exact halves of a tick.

use simulator::records::{time_of, Record};

/// Of a transition with a timing trigger whose time is an exact half: whether the tick below it is even or odd.
pub fn half(record: &Record) -> Option<&'static str> {
    match time_of(record)? % 200 {
        50 => Some("a half above an even tick"),
        150 => Some("a half above an odd tick"),
        _ => None,
    }
}
