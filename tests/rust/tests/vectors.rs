//! The vectors, on all implementations.

use penkwadar_tests::interface::{Interface, Plain, Proved};
use penkwadar_tests::testing::length_vectors::{
    HistoryVector, LengthVector, ReplayVector, SetupVector, length_vectors,
};
use penkwadar_tests::testing::tally_vectors::tally_vectors;
use penkwadar_tests::testing::vectors::{
    CsvVector, Outputs, StepVector, TraceVector, csv_vectors, fnv, program_vectors, step_vectors,
    trace_vectors,
};

#[test]
fn plain_steps() {
    steps::<Plain>();
}

#[test]
fn proved_steps() {
    steps::<Proved>();
}

#[test]
fn plain_programs() {
    programs::<Plain>();
}

#[test]
fn proved_programs() {
    programs::<Proved>();
}

#[test]
fn plain_csvs() {
    csvs::<Plain>();
}

#[test]
fn proved_csvs() {
    csvs::<Proved>();
}

#[test]
fn plain_traces() {
    traces::<Plain>();
}

#[test]
fn proved_traces() {
    traces::<Proved>();
}

#[test]
fn plain_lengths() {
    lengths::<Plain>();
}

#[test]
fn proved_lengths() {
    lengths::<Proved>();
}

#[test]
fn plain_tallies() {
    tallies::<Plain>();
}

#[test]
fn proved_tallies() {
    tallies::<Proved>();
}

fn steps<I: Interface>() {
    let vectors = step_vectors();
    assert!(vectors.len() >= 2_940, "only {} vectors", vectors.len());
    for (number, vector) in (1..).zip(vectors) {
        step::<I>(number, vector);
    }
}

fn step<I: Interface>(number: u64, mut vector: StepVector) {
    let answer = I::step(&mut vector.words, vector.step);
    assert_eq!(answer, vector.answer, "answer of vector {number}");
    assert_eq!(fnv(&vector.words), vector.check, "state of vector {number}");
}

fn programs<I: Interface>() {
    let vectors = program_vectors();
    assert!(vectors.len() >= 248, "only {} vectors", vectors.len());
    for vector in vectors {
        let (mut out, mut count) = (vec![0xee; 50_000], [7]);
        let answer = I::transcript(&vector.input, &mut out, &mut count);
        assert_eq!(answer, 0, "answer of {}", vector.name);
        let (text, rest) = out.split_at(count[0] as usize);
        assert_eq!(text, vector.output, "text of {}", vector.name);
        assert!(rest.iter().all(|&byte| byte == 0xee), "written past the text of {}", vector.name);
    }
}

fn csvs<I: Interface>() {
    let vectors = csv_vectors();
    assert!(vectors.len() >= 300, "only {} vectors", vectors.len());
    for (number, CsvVector { words, outputs }) in (1..).zip(vectors) {
        let text = unwritten(outputs.out_len).into_iter().map(|word| word as u8).collect();
        read(number, &words, text, outputs, I::csv);
    }
}

fn traces<I: Interface>() {
    let vectors = trace_vectors();
    assert!(vectors.len() >= 240, "only {} vectors", vectors.len());
    for (number, TraceVector { words, seat, outputs }) in (1..).zip(vectors) {
        let call = |words: &[u64], hosts: &mut [u64], count: &mut [u64]| {
            I::trace(words, seat, hosts, count)
        };
        read(number, &words, unwritten(outputs.out_len), outputs, call);
    }
}

fn lengths<I: Interface>() {
    let vectors = length_vectors();
    assert!(vectors.len() >= 400, "only {} vectors", vectors.len());
    let [mut setups, mut steps, mut histories, mut replays] = [0; 4];
    for (number, vector) in (1..).zip(vectors) {
        match vector {
            LengthVector::Setup(vector) => {
                setup::<I>(number, vector);
                setups += 1;
            }
            LengthVector::Step(vector) => {
                step::<I>(number, vector);
                steps += 1;
            }
            LengthVector::History(vector) => {
                history::<I>(number, vector);
                histories += 1;
            }
            LengthVector::Replay(vector) => {
                replay(number, vector, I::replay);
                replays += 1;
            }
        }
    }
    let made = [setups, steps, histories, replays];
    assert!(made.iter().all(|&calls| calls >= 90), "only {made:?} calls");
}

fn setup<I: Interface>(number: u64, vector: SetupVector) {
    let before = unwritten(vector.state_len);
    let mut words = before.clone();
    let answer = I::setup(&mut words, &vector.plan);
    assert_eq!(answer, vector.answer, "answer of vector {number}");
    let expected = if answer == 0 { vector.state } else { before };
    assert!(words == expected, "state of vector {number}");
}

fn history<I: Interface>(number: u64, HistoryVector { words, shard, outputs }: HistoryVector) {
    let call = |words: &[u64], history: &mut [u64], count: &mut [u64]| {
        I::stable_history(words, shard, history, count)
    };
    read(number, &words, unwritten(outputs.out_len), outputs, call);
}

fn tallies<I: Interface>() {
    let vectors = tally_vectors();
    assert!(vectors.len() >= 300, "only {} vectors", vectors.len());
    for (number, vector) in (1..).zip(vectors) {
        let mut tally = unwritten(vector.tally_len);
        let expected = begun(&tally, &vector.tally);
        replay(number, vector.replay, |words, log, budget, report| {
            I::replay_tally(words, log, budget, report, &mut tally)
        });
        assert_eq!(tally, expected, "tally of vector {number}");
    }
}

/// Makes a call that replays a log and writes a report.
fn replay(
    number: u64,
    mut vector: ReplayVector,
    call: impl FnOnce(&mut [u64], &[u8], u64, &mut [u64]) -> u64,
) {
    let mut report = unwritten(vector.report_len);
    let expected = begun(&report, &vector.report);
    let answer = call(&mut vector.words, &vector.log, vector.budget, &mut report);
    assert_eq!(answer, vector.answer, "answer of vector {number}");
    assert_eq!(report, expected, "report of vector {number}");
    assert_eq!(fnv(&vector.words), vector.check, "state of vector {number}");
}

/// Makes a call that reads a state and writes a list to `out`, and its count.
fn read<T: Copy + PartialEq>(
    number: u64,
    words: &[u64],
    mut out: Vec<T>,
    outputs: Outputs<T>,
    call: impl FnOnce(&[u64], &mut [T], &mut [u64]) -> u64,
) {
    let (before, mut count) = (words.to_vec(), unwritten(outputs.count_len));
    let expected = (begun(&out, &outputs.out), begun(&count, &outputs.count));
    let answer = call(words, &mut out, &mut count);
    assert_eq!(answer, outputs.answer, "answer of vector {number}");
    assert!((out, count) == expected, "outputs of vector {number}");
    assert!(words == before, "state of vector {number}");
}

/// Every output is filled before the call; what is not expected to be written has to stay.
fn unwritten(words: usize) -> Vec<u64> {
    (0..words as u64).map(|j| 12_297_829_382_473_034_410 + j).collect()
}

/// An output with these elements at its start.
fn begun<T: Copy>(output: &[T], start: &[T]) -> Vec<T> {
    [start, &output[start.len()..]].concat()
}
