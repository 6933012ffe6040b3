//! The benchmark at work, with few units: its sides give the same on every line.

use std::process::{Command, Output};

const LINES: usize = 51;

fn benchmark(arguments: &[&str]) -> Output {
    Command::new(env!("CARGO_BIN_EXE_benchmark")).args(arguments).output().expect("it runs")
}

fn text(output: Output) -> String {
    assert!(output.status.success(), "{output:?}");
    String::from_utf8(output.stdout).expect("text")
}

#[test]
fn times() {
    let text = text(benchmark(&["--quick"]));
    let close = format!(" of {LINES} lines within 1.5");
    let within = text.lines().find_map(|line| line.split_once(&close)).expect("a closing line").0;
    let within: usize = within.trim().parse().expect("a number");
    // few repetitions are rough: code that became twice as slow shows, a busy machine does not
    assert!(within >= 24, "{text}");
}

/// Two works of each side, and a third side where the file can be kept.
#[test]
fn counts() {
    let text = text(benchmark(&["--count"]));
    let of = |side: &str| text.lines().filter(|line| line.split('\t').nth(2) == Some(side)).count();
    assert_eq!((of("proved"), of("tuned"), of("kept")), (2 * LINES, 2 * LINES, 42), "{text}");
}

#[test]
fn picked_lines() {
    assert!(text(benchmark(&["--quick", "largest, sets"])).contains(" of 3 lines within 1.5"));
}

#[test]
fn wrong_arguments() {
    let output = benchmark(&["--quick", "largest", "sets"]);
    assert_eq!((output.status.code(), output.stdout.len()), (Some(2), 0));
}
