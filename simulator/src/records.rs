//! Records of 16 bytes: little-endian fields, two's complement values, kinds and limits.

pub const RECORD_LEN: usize = 16;
pub type Record = [u8; RECORD_LEN];

/// Stands for "none" as a guard or a literal's node, and for time in a path.
pub const NONE: u16 = 65_535;

pub const CHART: u8 = 1;
pub const STATE: u8 = 2;
pub const TRANSITION: u8 = 3;
pub const VARIABLE: u8 = 4;
pub const NODE: u8 = 5;
pub const ACTION: u8 = 6;

pub const AUTOMATON: u8 = 33;
pub const LOCATION: u8 = 34;
pub const EDGE: u8 = 35;
pub const LITERAL: u8 = 36;
pub const CLOCK: u8 = 37;
pub const TWIN_VARIABLE: u8 = 38;
pub const TWIN_NODE: u8 = 39;
pub const UPDATE: u8 = 40;
pub const RESET: u8 = 41;

/// The kinds of a chart set in ascending order, with the most of each.
pub const CHART_LIMITS: [(u8, usize); 6] =
    [(CHART, 8), (STATE, 128), (TRANSITION, 256), (VARIABLE, 64), (NODE, 1_024), (ACTION, 512)];

/// The kinds of an automata file in ascending order, with the most of each.
pub const AUTOMATA_LIMITS: [(u8, usize); 9] = [
    (AUTOMATON, 8),
    (LOCATION, 128),
    (EDGE, 512),
    (LITERAL, 2_944),
    (CLOCK, 384),
    (TWIN_VARIABLE, 64),
    (TWIN_NODE, 1_024),
    (UPDATE, 7_168),
    (RESET, 4_352),
];

/// The most of a kind that a file may hold; the kinds of a file follow one another.
pub const fn most(kind: u8) -> usize {
    let limits: &[(u8, usize)] = if kind < AUTOMATON { &CHART_LIMITS } else { &AUTOMATA_LIMITS };
    limits[(kind - limits[0].0) as usize].1
}

/// The bytes of a file with the most of each kind.
pub const fn most_bytes(limits: &[(u8, usize)]) -> usize {
    let (mut records, mut at) = (0, 0);
    while at < limits.len() {
        records += limits[at].1;
        at += 1;
    }
    records * RECORD_LEN
}

pub const ACTIONS_PER_OWNER: usize = 8;
pub const EVENTS: u8 = 32;
pub const HIGHEST_PRIORITY: u8 = 1;
pub const LOWEST_PRIORITY: u8 = 16;
pub const MOST_MILLISECONDS: u32 = 3_600_000;
pub const MOST_TICKS: u16 = 36_000;

// Action places, deeds, triggers of transitions and of literals, literal signs.
pub const ENTRY: u8 = 1;
pub const EXIT: u8 = 2;
pub const ON_TRANSITION: u8 = 3;
/// Done while a state idles.
pub const WAITING: u8 = 4;

pub const ASSIGN: u8 = 1;
pub const RAISE: u8 = 2;

pub const NO_TRIGGER: u8 = 0;
pub const ON_EVENT: u8 = 1;
pub const AFTER: u8 = 2;
pub const EVERY: u8 = 3;
/// Trigger 2 of a literal.
pub const ON_CLOCK: u8 = 2;

pub const MUST_HOLD: u8 = 1;
pub const MUST_NOT: u8 = 2;

pub fn read_u16(record: &Record, at: usize) -> u16 {
    u16::from(record[at]) | u16::from(record[at + 1]) << 8
}

pub fn read_u32(record: &Record, at: usize) -> u32 {
    u32::from(read_u16(record, at)) | u32::from(read_u16(record, at + 2)) << 16
}

/// Two's complement: FD FF is -3, never 65,533.
pub fn read_i16(record: &Record, at: usize) -> i16 {
    let raw = i32::from(read_u16(record, at));
    let value = if raw >= 1 << 15 { raw - (1 << 16) } else { raw };
    i16::try_from(value).expect("16 bits in two's complement")
}

pub fn read_i32(record: &Record, at: usize) -> i32 {
    let raw = i64::from(read_u32(record, at));
    let value = if raw >= 1 << 31 { raw - (1 << 32) } else { raw };
    i32::try_from(value).expect("32 bits in two's complement")
}

pub fn write_u16(record: &mut Record, at: usize, value: u16) {
    record[at..at + 2].copy_from_slice(&value.to_le_bytes());
}

pub fn write_u32(record: &mut Record, at: usize, value: u32) {
    record[at..at + 4].copy_from_slice(&value.to_le_bytes());
}

pub fn write_i16(record: &mut Record, at: usize, value: i16) {
    record[at..at + 2].copy_from_slice(&value.to_le_bytes());
}

pub fn write_i32(record: &mut Record, at: usize, value: i32) {
    record[at..at + 4].copy_from_slice(&value.to_le_bytes());
}

/// Where the milliseconds of a transition's timing trigger stand, or those of a waiting action.
pub fn time_at(record: &Record) -> Option<usize> {
    match record[0] {
        TRANSITION if matches!(record[6], AFTER | EVERY) => Some(8),
        ACTION if record[1] == WAITING => Some(12),
        _ => None,
    }
}

pub fn time_of(record: &Record) -> Option<u32> {
    time_at(record).map(|at| read_u32(record, at))
}

/// The guard of an action or update: bytes 8-9 hold its node plus one, zero for none.
pub fn deed_guard(record: &Record) -> Option<u16> {
    read_u16(record, 8).checked_sub(1)
}

/// The whole records of some bytes; a rest of fewer than 16 bytes is left out.
pub fn whole_records(bytes: &[u8]) -> &[Record] {
    bytes.as_chunks::<RECORD_LEN>().0
}
