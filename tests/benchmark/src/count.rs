//! The work of each side, done between marks that a profiler sees.

use crate::lines::Line;
use crate::work::{Side, Work};

/// What a profiler counts: the function is entered for nothing else.
#[no_mangle]
#[inline(never)]
pub extern "Rust" fn counted_work(side: &mut dyn Work, units: usize) {
    side.work(units);
}

/// Does a side's work with so many units, and says so.
fn count(line: (&str, &str), name: &str, side: &mut Side, units: usize) -> u64 {
    side.reset();
    counted_work(&mut **side, units);
    println!("{}\t{}\t{name}\t{units}", line.0, line.1);
    side.given()
}

/// Each side does some units and then twice as many: the difference of two counts has no work in it that is done once a call.
/// The first work warms up, and is not counted.
pub fn print(lines: &mut [Line]) {
    for line in lines {
        let name = (line.input, line.work);
        let units = line.units / 2;
        let kept = line.kept.iter_mut().map(|side| ("kept", side));
        let sides = [("proved", &mut line.proved), ("tuned", &mut line.tuned)].into_iter().chain(kept);
        let mut given = Vec::new();
        for (which, side) in sides {
            side.work(1);
            given.push([units, 2 * units].map(|units| count(name, which, side, units)));
        }
        assert!(given.iter().all(|one| *one == given[0]), "{}, {}: results differ", name.0, name.1);
    }
}
