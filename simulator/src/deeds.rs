//! Deeds of actions and updates: assign and raise, one rule for both steppers.

use crate::expressions::{Evaluator, Node};
use crate::records::ASSIGN;
use crate::refusals::{Refusal, OUTSIDE_VARIABLE};
use crate::variables::{Values, Variable};

#[derive(Clone, Copy, Debug, PartialEq, Eq)]
pub enum Deed {
    Assign { variable: u8, node: u16 },
    Raise { event: u8 },
}

impl Deed {
    pub fn from_codes(deed: u8, variable_or_event: u8, node: u16) -> Deed {
        if deed == ASSIGN {
            Deed::Assign { variable: variable_or_event, node }
        } else {
            Deed::Raise { event: variable_or_event }
        }
    }
}

/// The deed of an action or update, done only where its guard holds, if it has one.
#[derive(Clone, Copy, Debug, PartialEq, Eq)]
pub struct GuardedDeed {
    pub guard: Option<u16>,
    pub deed: Deed,
}

/// What deeds read and change.
pub struct Scene<'a> {
    pub nodes: &'a [Node],
    pub variables: &'a [Variable],
    pub values: &'a mut Values,
    pub events: &'a mut u32,
}

impl Scene<'_> {
    /// Deeds in sequence, each seeing the last; the first fault ends it.
    pub fn run<'d>(&mut self, deeds: impl IntoIterator<Item = &'d GuardedDeed>) -> Result<(), Refusal> {
        deeds.into_iter().try_for_each(|deed| self.run_one(deed))
    }

    /// The guard is worked out when its deed's turn comes; if false, the deed's number is not.
    fn run_one(&mut self, GuardedDeed { guard, deed }: &GuardedDeed) -> Result<(), Refusal> {
        let evaluator = Evaluator { nodes: self.nodes, variables: self.values };
        if let Some(guard) = guard {
            if !evaluator.truth(*guard)? {
                return Ok(());
            }
        }
        match *deed {
            Deed::Assign { variable, node } => {
                let value = evaluator.number(node)?;
                self.assign(usize::from(variable), value)
            }
            Deed::Raise { event } => {
                *self.events |= 1 << event;
                Ok(())
            }
        }
    }

    fn assign(&mut self, variable: usize, value: i32) -> Result<(), Refusal> {
        if !self.variables[variable].holds(value) {
            return Err(OUTSIDE_VARIABLE);
        }
        self.values[variable] = i16::try_from(value).expect("variable ranges lie within 16 bits");
        Ok(())
    }
}
