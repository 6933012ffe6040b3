//! The C interface, each declaration that of crate `monuvaleck`. A refusal is minus its number.

use simulator::{AutomataRun, ChartsRun};

/// What a turn answers where a chart idles, and where time passes.
pub const IDLE: i32 = 65_534;
pub const TIME: i32 = 65_535;
/// The most bytes of a twin.
pub const LONGEST_TWIN: usize = 265_344;

mod exported {
    use simulator::{AutomataRun, ChartsRun};

    extern "C" {
        pub fn charts_check(set: *const u8, len: usize) -> i32;
        pub fn automata_check(table: *const u8, len: usize) -> i32;
        pub fn charts_start(set: *const u8, len: usize, run: *mut ChartsRun) -> i32;
        pub fn automata_start(table: *const u8, len: usize, run: *mut AutomataRun) -> i32;
        pub fn charts_turn(set: *const u8, len: usize, run: *mut ChartsRun, events: u32) -> i32;
        pub fn automata_turn(table: *const u8, len: usize, run: *mut AutomataRun, events: u32) -> i32;
        pub fn charts_cycle(set: *const u8, len: usize, run: *mut ChartsRun, events: u32) -> i32;
        pub fn automata_cycle(table: *const u8, len: usize, run: *mut AutomataRun, events: u32) -> i32;
        pub fn charts_translate(set: *const u8, len: usize, out: *mut u8, out_len: usize) -> i32;
        pub fn path_back(
            set: *const u8,
            len: usize,
            path: *const u16,
            path_len: usize,
            rows: *mut u32,
            rows_len: usize,
        ) -> i32;
        pub fn charts_play(
            set: *const u8,
            len: usize,
            run: *mut ChartsRun,
            masks: *const u32,
            masks_len: usize,
        ) -> i32;
        pub fn automata_play(
            table: *const u8,
            len: usize,
            run: *mut AutomataRun,
            masks: *const u32,
            masks_len: usize,
        ) -> i32;
        pub fn guard_read(text: *const u8, text_len: usize, nodes: *mut u8, nodes_len: usize) -> i32;
        pub fn guard_write(nodes: *const u8, nodes_len: usize, text: *mut u8, text_len: usize) -> i32;
    }
}

pub fn charts_check(set: &[u8]) -> i32 {
    unsafe { exported::charts_check(set.as_ptr(), set.len()) }
}

pub fn automata_check(table: &[u8]) -> i32 {
    unsafe { exported::automata_check(table.as_ptr(), table.len()) }
}

/// The length of the twin's file.
pub fn charts_translate(set: &[u8], out: &mut [u8]) -> i32 {
    unsafe { exported::charts_translate(set.as_ptr(), set.len(), out.as_mut_ptr(), out.len()) }
}

/// The twin of an accepted set.
pub fn twin_of(set: &[u8]) -> Vec<u8> {
    let mut out = vec![0; LONGEST_TWIN];
    let length = usize::try_from(charts_translate(set, &mut out)).expect("an accepted set");
    out.truncate(length);
    out
}

/// The number of rows.
pub fn path_back(set: &[u8], path: &[u16], rows: &mut [u32]) -> i32 {
    unsafe {
        exported::path_back(set.as_ptr(), set.len(), path.as_ptr(), path.len(), rows.as_mut_ptr(), rows.len())
    }
}

/// The number of nodes.
pub fn guard_read(text: &[u8], nodes: &mut [u8]) -> i32 {
    unsafe { exported::guard_read(text.as_ptr(), text.len(), nodes.as_mut_ptr(), nodes.len()) }
}

/// The number of bytes.
pub fn guard_write(nodes: &[u8], text: &mut [u8]) -> i32 {
    unsafe { exported::guard_write(nodes.as_ptr(), nodes.len(), text.as_mut_ptr(), text.len()) }
}

/// The calls that step a lent run.
pub struct Calls<Run> {
    start: unsafe extern "C" fn(*const u8, usize, *mut Run) -> i32,
    turn: unsafe extern "C" fn(*const u8, usize, *mut Run, u32) -> i32,
    cycle: unsafe extern "C" fn(*const u8, usize, *mut Run, u32) -> i32,
    play: unsafe extern "C" fn(*const u8, usize, *mut Run, *const u32, usize) -> i32,
}

/// A run that the proved code steps where it lies: of a chart set, or of a table of automata.
pub trait Stepped: Sized + 'static {
    const CALLS: Calls<Self>;

    fn start(&mut self, file: &[u8]) -> i32 {
        unsafe { (Self::CALLS.start)(file.as_ptr(), file.len(), self) }
    }

    fn turn(&mut self, file: &[u8], events: u32) -> i32 {
        unsafe { (Self::CALLS.turn)(file.as_ptr(), file.len(), self, events) }
    }

    fn cycle(&mut self, file: &[u8], events: u32) -> i32 {
        unsafe { (Self::CALLS.cycle)(file.as_ptr(), file.len(), self, events) }
    }

    fn play(&mut self, file: &[u8], masks: &[u32]) -> i32 {
        unsafe { (Self::CALLS.play)(file.as_ptr(), file.len(), self, masks.as_ptr(), masks.len()) }
    }
}

impl Stepped for ChartsRun {
    const CALLS: Calls<ChartsRun> = Calls {
        start: exported::charts_start,
        turn: exported::charts_turn,
        cycle: exported::charts_cycle,
        play: exported::charts_play,
    };
}

impl Stepped for AutomataRun {
    const CALLS: Calls<AutomataRun> = Calls {
        start: exported::automata_start,
        turn: exported::automata_turn,
        cycle: exported::automata_cycle,
        play: exported::automata_play,
    };
}
