//! Speed of the proved code beside tuned Rust, on the same input in one run: `cargo run --release`.
//!
//! A line of the table is one kind of work on one input. The sides do it in turns, what they give must be the same, and medians
//! are reported, of the times and of the ratios. `--quick` does less; `--count` does the work once, to be counted by
//! `instructions`. A text after these picks the lines whose name has it.

mod clock;
mod count;
mod guards;
mod inputs;
mod lines;
mod proved;
mod shapes;
mod table;
mod work;

fn main() {
    let arguments: Vec<String> = std::env::args().skip(1).collect();
    let (mode, text) = match &arguments.iter().map(String::as_str).collect::<Vec<_>>()[..] {
        [] => ("", ""),
        [mode @ ("--quick" | "--count")] => (*mode, ""),
        [mode @ ("--quick" | "--count"), text] => (*mode, *text),
        [text] => ("", *text),
        _ => {
            eprintln!("usage: benchmark [--quick | --count] [TEXT]");
            std::process::exit(2);
        }
    };
    match mode {
        "--quick" => table::print(&mut lines::all(text, 50), 2),
        "--count" => count::print(&mut lines::all(text, 50)),
        _ => table::print(&mut lines::all(text, 1), 31),
    }
}
