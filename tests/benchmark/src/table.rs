//! The sides timed in turns.

use crate::clock::processor_time;
use crate::lines::Line;
use crate::work::{Side, Work};

/// How slow the proved code may be beside the tuned.
const TARGET: f64 = 1.5;

fn nanoseconds(side: &mut dyn Work, units: usize) -> f64 {
    side.reset();
    let start = processor_time();
    side.work(units);
    (processor_time() - start) as f64 / units as f64
}

fn median(mut times: Vec<f64>) -> f64 {
    times.sort_by(f64::total_cmp);
    times[times.len() / 2]
}

/// Nanoseconds a unit of each side, of each repetition. All sides must give the same; the first round warms up and is not counted.
fn measure(line: &mut Line, repetitions: usize) -> Vec<Vec<f64>> {
    let mut sides: Vec<&mut Side> =
        [&mut line.proved, &mut line.tuned].into_iter().chain(&mut line.kept).collect();
    let mut times = vec![Vec::new(); sides.len()];
    for repetition in 0..=repetitions {
        for (side, times) in sides.iter_mut().zip(&mut times) {
            let time = nanoseconds(&mut ***side, line.units);
            if repetition > 0 {
                times.push(time);
            }
        }
        let given = sides[0].given();
        assert!(
            sides.iter().all(|side| side.given() == given),
            "{}, {}: results differ",
            line.input,
            line.work
        );
    }
    times
}

/// The sides of a repetition run right after each other, so that a machine that slows down between repetitions does not show in it.
fn ratio_of(times: &[Vec<f64>]) -> f64 {
    median(times[0].iter().zip(&times[1]).map(|(proved, tuned)| proved / tuned).collect())
}

pub fn print(lines: &mut [Line], repetitions: usize) {
    let mut within = 0;
    println!(
        "{:<11} {:<34} {:>11} {:>11} {:>7}   {:>11}",
        "input", "work", "proved", "tuned", "ratio", "kept"
    );
    for line in &mut *lines {
        let times = measure(line, repetitions);
        let ratio = ratio_of(&times);
        let times: Vec<f64> = times.into_iter().map(median).collect();
        let mark = if ratio > TARGET { '*' } else { ' ' };
        let kept = times.get(2).map_or(String::new(), |time| format!("{time:.1}"));
        println!(
            "{:<11} {:<34} {:>11.1} {:>11.1} {ratio:>7.2} {mark} {kept:>11}",
            line.input, line.work, times[0], times[1]
        );
        within += usize::from(ratio <= TARGET);
    }
    println!("{within} of {} lines within {TARGET}; the others are marked *.", lines.len());
    println!("Nanoseconds of processor time a unit, medians of {repetitions} repetitions in turns.");
    println!("ratio: proved / tuned, which reads the file as often as the proved code does; the median of the repetitions' ratios.");
    println!("kept: tuned with the decoded file kept between calls.");
}
