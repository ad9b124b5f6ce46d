//! `cargo run --release --bin bench`: the proved machine against the plain and the tuned implementation, as Markdown.
//! Names of parts as arguments (check, steps, codec, replays, tally, transcripts, csv, trace, lengths) measure only those;
//! `--markdown FILE` writes what is printed to a file too.

use std::{env, fs, io};

fn main() -> io::Result<()> {
    let (mut names, mut file) = (Vec::new(), None);
    let mut arguments = env::args().skip(1);
    while let Some(argument) = arguments.next() {
        match argument.as_str() {
            "--markdown" => file = Some(arguments.next().expect("--markdown FILE")),
            _ => names.push(argument),
        }
    }
    let page = penkwadar_tests::bench::run(&names);
    file.map_or(Ok(()), |file| fs::write(file, page))
}
