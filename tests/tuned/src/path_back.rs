//! A path of the twin led back: a first pass finds that it fits and how many rows it gives, a second writes them.

use crate::charts::{idle_edges, Set};
use crate::files::NONE;
use crate::machine::MOST_CYCLES;
use crate::runs::PARTS;
use crate::Refusal;

/// The rows of a path that fits, or 20.
fn count(set: &Set, path: &[u16]) -> Result<usize, Refusal> {
    // Of each edge both ends, idle edges behind the transitions'. A location's number is its chart's alone, so that an edge
    // which leaves where the chart in turn stands is that chart's.
    let mut ends = [(NONE, NONE); 512];
    for (end, transition) in ends.iter_mut().zip(&set.transitions) {
        *end = (transition.source, transition.target);
    }
    let mut idle = ends[set.transitions.len()..].iter_mut();
    for (state, waiting) in set.waiting[..set.states].iter().enumerate() {
        for end in idle.by_ref().take(idle_edges(*waiting)) {
            *end = (state as u16, state as u16);
        }
    }
    let mut standing = set.initial;
    let (mut turn, mut cycles, mut rows) = (0, 0, 0);
    for step in path {
        if cycles == MOST_CYCLES {
            return Err(20);
        }
        let number = usize::from(*step);
        if turn < set.charts {
            let stands = &mut standing[turn & (PARTS - 1)];
            match ends.get(number) {
                Some((source, target)) if source == stands => *stands = *target,
                _ => return Err(20),
            }
            rows += usize::from(number < set.transitions.len());
            turn += 1;
        } else if *step == NONE {
            turn = 0;
            cycles += 1;
        } else {
            return Err(20);
        }
    }
    Ok(rows)
}

/// Refusals 20 and 21; rows beyond are kept, and on a refusal all of them.
pub fn write(set: &Set, path: &[u16], rows: &mut [u32]) -> Result<usize, Refusal> {
    let found = count(set, path)?;
    if found > rows.len() / 3 {
        return Err(21);
    }
    let mut places = rows.as_chunks_mut::<3>().0.iter_mut();
    let (mut chart, mut cycle) = (0, 0);
    for step in path {
        if *step == NONE {
            chart = 0;
            cycle += 1;
            continue;
        }
        if usize::from(*step) < set.transitions.len() {
            if let Some(place) = places.next() {
                *place = [cycle, chart, u32::from(*step)];
            }
        }
        chart += 1;
    }
    Ok(found)
}
