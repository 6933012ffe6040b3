//! Variables: their ranges and the 64 places of a run.

use crate::records::{most, read_i16, Record, VARIABLE};

pub const VARIABLE_PLACES: usize = most(VARIABLE);
pub type Values = [i16; VARIABLE_PLACES];

#[derive(Clone, Copy, Debug, PartialEq, Eq)]
pub struct Variable {
    pub lowest: i16,
    pub highest: i16,
    pub start: i16,
}

impl Variable {
    pub fn read(record: &Record) -> Variable {
        Variable { lowest: read_i16(record, 2), highest: read_i16(record, 4), start: read_i16(record, 6) }
    }

    /// lowest <= start <= highest; else refusal 5.
    pub fn well_ranged(&self) -> bool {
        self.holds(i32::from(self.start))
    }

    pub fn holds(&self, value: i32) -> bool {
        i32::from(self.lowest) <= value && value <= i32::from(self.highest)
    }
}

pub fn start_values(variables: &[Variable]) -> Values {
    let mut values = [0; VARIABLE_PLACES];
    for (value, variable) in values.iter_mut().zip(variables) {
        *value = variable.start;
    }
    values
}

/// The part of check 12 about variables: each in its range, unused places zero.
pub fn values_possible(variables: &[Variable], values: &Values) -> bool {
    let (used, unused) = values.split_at(variables.len());
    variables.iter().zip(used).all(|(variable, value)| variable.holds(i32::from(*value)))
        && unused.iter().all(|value| *value == 0)
}
