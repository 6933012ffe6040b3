//! The numbers of the refusal table. Every refusal and fault is told by its number alone.

pub type Refusal = u32;

pub const LENGTH: Refusal = 1;
pub const KIND: Refusal = 2;
pub const COUNT: Refusal = 3;
pub const STRAY_BYTE: Refusal = 4;
pub const CODE_OR_RANGE: Refusal = 5;
pub const NAMES_NOTHING: Refusal = 6;
pub const STRUCTURE: Refusal = 7;
pub const NODES: Refusal = 8;
pub const ZERO_TICKS: Refusal = 9;
pub const BUFFER: Refusal = 10;
pub const AUTOMATA_FILE: Refusal = 11;
pub const IMPOSSIBLE_STATE: Refusal = 12;
pub const EVENTS_ELSEWHERE: Refusal = 13;
pub const CYCLES_DONE: Refusal = 14;
pub const OUT_OF_RANGE: Refusal = 15;
pub const ZERO_DIVISOR: Refusal = 16;
pub const OUTSIDE_VARIABLE: Refusal = 17;
pub const NO_EDGE_OPEN: Refusal = 18;
pub const SEVERAL_EDGES_OPEN: Refusal = 19;
pub const PATH: Refusal = 20;
pub const ROWS: Refusal = 21;

// Document 02, guards typed as a line: outside the grammar, a wrong sort, too little space.
pub const LINE: Refusal = 22;
pub const LINE_SORT: Refusal = 23;
pub const LINE_ROOM: Refusal = 24;

/// Document 02: waiting actions of one state with different milliseconds, asked after 9.
pub const WAITING_TIMES: Refusal = 25;
