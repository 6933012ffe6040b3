//! Chart sets and their automata twins, written for speed: what is read from bytes is read once, into tables of fixed size, and
//! turns move the lent run in place.
//!
//! - `files`: records, framing (refusals 1 to 3) and stray bytes (refusal 4) as masks of 128 bits.
//! - `nodes`: decoded nodes, their checks and their values.
//! - `runs`: the lent runs, variables' bounds and deeds. `machine`: checks before a turn, turns, cycles.
//! - `charts`: refusals 5 to 9, the decoded set, a chart's turn.
//! - `automata`: refusal 11, the decoded table, an automaton's turn.
//! - `translation`: the twin of a decoded set. `path_back`: its path led back.
//! - `guard_reader`: a guard's line read into nodes. `guard_writer`: its nodes written as a line. `operators`: how tight they bind.
//!
//! Refusals and faults are the numbers of the refusal table.

pub mod automata;
pub mod charts;
pub mod files;
pub mod guard_reader;
pub mod guard_writer;
pub mod machine;
pub mod nodes;
pub mod operators;
pub mod path_back;
pub mod runs;
pub mod translation;

/// The number of a refusal or fault.
pub type Refusal = u32;
