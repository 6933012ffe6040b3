//! Leading a path of the twin back to the transitions of the chart set.

use crate::charts::ChartSet;
use crate::records::NONE;
use crate::refusals::{Refusal, PATH, ROWS};
use crate::runs::chart_in_turn;
use crate::timing::MOST_CYCLES;
use crate::translation::idle_edges;
use std::ops::Range;

pub const ROW_WORDS: usize = 3;
/// Cycle, chart, transition.
pub type Row = [u32; ROW_WORDS];

/// Writes one row for each edge that came of a transition; the answer is their number. Rows
/// beyond are kept, and on a refusal (1 to 9, 25, then 20, then 21) all of them.
pub fn path_back(set: &[u8], path: &[u16], rows: &mut [u32]) -> Result<usize, Refusal> {
    let found = rows_of(&ChartSet::read(set)?, path)?;
    if found.len() > rows.len() / ROW_WORDS {
        return Err(ROWS);
    }
    for (row, place) in found.iter().zip(rows.chunks_exact_mut(ROW_WORDS)) {
        place.copy_from_slice(row);
    }
    Ok(found.len())
}

/// The rows of a path of the twin of an accepted set, or 20.
pub fn rows_of(set: &ChartSet, path: &[u16]) -> Result<Vec<Row>, Refusal> {
    let (standing, idle) = (set.initial.clone(), idle_edges(set));
    let mut walk = Walk { set, idle, standing, position: 1, cycles: 0, rows: Vec::new() };
    path.iter().try_for_each(|step| walk.follow(*step))?;
    Ok(walk.rows)
}

/// Where the twin's automata stand along the path.
struct Walk<'a> {
    set: &'a ChartSet,
    /// The idle edges of each state.
    idle: Vec<Range<u16>>,
    standing: Vec<u16>,
    position: u32,
    cycles: u32,
    rows: Vec<Row>,
}

impl Walk<'_> {
    fn follow(&mut self, step: u16) -> Result<(), Refusal> {
        // A run ends with its last cycle; whatever comes then goes on after it.
        if self.cycles == MOST_CYCLES {
            return Err(PATH);
        }
        match chart_in_turn(self.standing.len(), self.position) {
            Some(chart) => self.follow_edge(chart, step),
            None if step == NONE => {
                self.cycles += 1;
                self.position = 1;
                Ok(())
            }
            None => Err(PATH),
        }
    }

    fn follow_edge(&mut self, chart: usize, edge: u16) -> Result<(), Refusal> {
        if let Some(transition) = self.set.transitions.get(usize::from(edge)) {
            if transition.source != self.standing[chart] {
                return Err(PATH);
            }
            self.standing[chart] = transition.target;
            let chart = u32::try_from(chart).expect("at most 8");
            self.rows.push([self.cycles, chart, u32::from(edge)]);
        } else if !self.idle[usize::from(self.standing[chart])].contains(&edge) {
            // Due or not due, an idle edge gives no row. A number past the last idle edge, and time
            // out of turn, are no present state's.
            return Err(PATH);
        }
        self.position += 1;
        Ok(())
    }
}
