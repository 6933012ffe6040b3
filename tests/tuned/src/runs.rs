//! The lent runs, variables' bounds, and deeds.

use crate::files::{records, span, NONE};
use crate::nodes::{Nodes, Values, PLACES};
use crate::Refusal;

pub const PARTS: usize = 8;
pub const CLOCKS: usize = 384;

/// The last places of both runs.
#[repr(C)]
#[derive(Clone, Copy, Debug, PartialEq, Eq, Hash)]
pub struct Shared {
    pub variables: Values,
    pub events: u32,
    pub position: u32,
    pub cycles: u32,
}

impl Shared {
    pub fn fresh(variables: Values) -> Shared {
        Shared { variables, events: 0, position: 1, cycles: 0 }
    }
}

#[repr(C)]
#[derive(Clone, Copy, Debug, PartialEq, Eq, Hash)]
pub struct ChartsRun {
    pub states: [u16; PARTS],
    pub ages: [u32; PARTS],
    pub shared: Shared,
}

#[repr(C)]
#[derive(Clone, Copy, Debug, PartialEq, Eq, Hash)]
pub struct AutomataRun {
    pub locations: [u16; PARTS],
    pub clocks: [u16; CLOCKS],
    pub shared: Shared,
}

// The layout is that of the C interface.
const _: () = assert!(size_of::<ChartsRun>() == 188 && size_of::<AutomataRun>() == 924);

pub trait Run: Copy {
    fn shared(&self) -> &Shared;
    fn shared_mut(&mut self) -> &mut Shared;
}

impl Run for ChartsRun {
    #[inline(always)]
    fn shared(&self) -> &Shared {
        &self.shared
    }
    #[inline(always)]
    fn shared_mut(&mut self) -> &mut Shared {
        &mut self.shared
    }
}

impl Run for AutomataRun {
    #[inline(always)]
    fn shared(&self) -> &Shared {
        &self.shared
    }
    #[inline(always)]
    fn shared_mut(&mut self) -> &mut Shared {
        &mut self.shared
    }
}

/// Of each of the 64 places the bounds; an unused place has 0 and 0, so that one loop checks all.
pub struct Variables {
    pub lowest: Values,
    pub highest: Values,
    pub start: Values,
    pub count: usize,
}

impl Variables {
    /// The variables, whether a byte strays, and whether a start is out of bounds.
    pub fn read(section: &[u8]) -> (Variables, bool, bool) {
        let none = [0; PLACES];
        let mut read = Variables { lowest: none, highest: none, start: none, count: section.len() / 16 };
        let (mut stray, mut broken) = (false, false);
        for (place, record) in records(section).enumerate() {
            let place = place & (PLACES - 1);
            read.lowest[place] = record.i16(2);
            read.highest[place] = record.i16(4);
            read.start[place] = record.i16(6);
            stray |= record.strays(span(0, 0) | span(2, 7));
            broken |= read.start[place] < read.lowest[place] || read.highest[place] < read.start[place];
        }
        (read, stray, broken)
    }

    #[inline(always)]
    pub fn possible(&self, values: &Values) -> bool {
        // No branch within the loop, so that it is done eight places at a time.
        let mut out = 0i16;
        for ((value, lowest), highest) in values.iter().zip(&self.lowest).zip(&self.highest) {
            out |= i16::from(value < lowest) | i16::from(highest < value);
        }
        out == 0
    }
}

/// Of each place its part; unused places have no part.
#[inline(always)]
pub fn homes_possible(homes: &[u8; 128], parts: usize, at: &[u16; PARTS]) -> bool {
    let mut fine = true;
    for (part, place) in at.iter().enumerate() {
        let place = usize::from(*place);
        fine &=
            if part < parts { place < 128 && usize::from(homes[place & 127]) == part } else { place == 0 };
    }
    fine
}

/// An assignment or a raise, and its guard. Six bytes, as a table may have thousands.
#[derive(Clone, Copy, Default)]
pub struct Deed {
    pub guard: u16,
    pub node: u16,
    /// The variable, or the event.
    pub thing: u8,
    pub assigns: bool,
}

impl Deed {
    #[inline(always)]
    pub fn of(code: u8, thing: u8, node: u16, guard: u16) -> Deed {
        Deed { guard, node, thing, assigns: code == 1 }
    }
}

#[inline(always)]
pub fn do_deeds(nodes: &Nodes, bounds: &Variables, deeds: &[Deed], run: &mut Shared) -> Result<(), Refusal> {
    for deed in deeds {
        if deed.guard != NONE && !nodes.truth(&run.variables, deed.guard)? {
            continue;
        }
        if deed.assigns {
            let number = nodes.number(&run.variables, deed.node)?;
            let place = usize::from(deed.thing) & (PLACES - 1);
            if number < i32::from(bounds.lowest[place]) || i32::from(bounds.highest[place]) < number {
                return Err(17);
            }
            run.variables[place] = number as i16;
        } else {
            run.events |= 1u32.wrapping_shl(u32::from(deed.thing));
        }
    }
    Ok(())
}
