//! Proved against plain and tuned Rust: what is measured, and how.

mod check;
mod clock;
mod codec;
mod csv;
mod installs;
mod lengths;
mod replays;
mod single;
mod states;
mod steps;
mod table;
mod tally;
mod trace;
mod transcripts;

use table::Table;

/// A part of the benchmark: its name, and what measures it.
type Part = (&'static str, fn() -> Vec<Table>);

const PARTS: [Part; 9] = [
    ("check", check::tables),
    ("steps", single::tables),
    ("codec", codec::tables),
    ("replays", replays::tables),
    ("tally", tally::tables),
    ("transcripts", transcripts::tables),
    ("csv", csv::tables),
    ("trace", trace::tables),
    ("lengths", lengths::tables),
];

/// Measures the named parts, or all where none is named; prints Markdown part by part, and gives all of it.
pub fn run(names: &[String]) -> String {
    let mut page = String::new();
    let mut tell = |text: String| {
        print!("{text}");
        page += &text;
    };
    tell(INTRODUCTION.to_string());
    for (name, tables) in PARTS {
        if names.is_empty() || names.iter().any(|wanted| wanted == name) {
            tables().iter().for_each(|table| tell(format!("\n{table}")));
        }
    }
    page
}

const INTRODUCTION: &str = "\
# Benchmark

Written by one run of `cargo run --release --bin bench -- --markdown ../../docs/BENCHMARK.md` in `tests/rust`. What the
numbers mean for the goals is in [PERFORMANCE.md](PERFORMANCE.md).

`proved` is the static library, `plain` the Rust implementation in `src/plain`, `tuned` the one in `src/tuned`; all run
in one process, and each is called through one function with the same slices. Each number is the least over many rounds.
In a round all sides get the same input in the same buffers, restored before each turn, and they take turns in going
first. Below 1 the proved code is faster. Rust and the library are compiled for every x86-64 processor.
";
