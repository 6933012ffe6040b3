//! Reference simulator of crawler chart sets and their automata twins.
//!
//! Written from the papers alone, so that the proved code can be compared with it. Simple
//! rules stand in one function each: ticks and the timing rules in `timing`, arithmetic in
//! `expressions`, deeds in `deeds`, limits and kinds in `records`, operators in `operators`. Guards
//! typed as a line (document 02) are read and written in `guards`.
//!
//! Free functions of `charts` and `automata` take any bytes and check them each time;
//! `charts::ChartSet` and `automata::AutomataTable` are the prepared forms for many calls.

pub mod assemble;
pub mod automata;
pub mod chart_sets;
pub mod charts;
pub mod correspondence;
pub mod deeds;
pub mod expressions;
pub mod files;
pub mod generate;
pub mod guards;
pub mod interface;
pub mod listing;
pub mod node_rules;
pub mod operators;
pub mod path_back;
pub mod random;
pub mod records;
pub mod refusals;
pub mod replay;
pub mod runs;
pub mod timing;
pub mod translation;
pub mod variables;

pub use automata::AutomataTable;
pub use charts::ChartSet;
pub use random::Random;
pub use runs::{Answer, AutomataRun, ChartsRun, Machine};
