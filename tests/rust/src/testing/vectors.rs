//! The vectors of the repository: single steps, logs with the text that the program prints, and calls with what they
//! answer and write.

use std::fs;
use std::path::{Path, PathBuf};

use crate::seat::Seat;
use crate::step::Step;

/// One single step, the state it is tried on, and what is expected.
pub struct StepVector {
    pub words: Vec<u64>,
    pub step: Step,
    pub answer: u64,
    /// FNV-1a over the state after the step.
    pub check: u64,
}

/// One input of the program and the text that it prints.
pub struct ProgramVector {
    pub name: String,
    pub input: Vec<u8>,
    pub output: Vec<u8>,
}

/// What a call that writes a list and its count is lent for them, and what is expected.
pub struct Outputs<T> {
    pub out_len: usize,
    pub count_len: usize,
    pub answer: u64,
    /// What is written at the start of the output, and of the count.
    pub out: Vec<T>,
    pub count: Vec<u64>,
}

/// One call for a state's text for spreadsheets.
pub struct CsvVector {
    pub words: Vec<u64>,
    pub outputs: Outputs<u8>,
}

/// One call for where a replica got its history.
pub struct TraceVector {
    pub words: Vec<u64>,
    pub seat: Seat,
    pub outputs: Outputs<u64>,
}

/// The single steps that `crates/step_vectors` runs in the gate too.
pub fn step_vectors() -> Vec<StepVector> {
    let mut numbers = Numbers { bytes: read(&root().join("crates/step_vectors/stdin")), at: 0 };
    let vectors = (0..numbers.next()).map(|_| step_vector(&mut numbers)).collect();
    assert_eq!(numbers.at, numbers.bytes.len(), "more bytes than told");
    vectors
}

/// The logs in the directories of `tests/vectors`, in the order of their names.
pub fn program_vectors() -> Vec<ProgramVector> {
    let mut inputs: Vec<PathBuf> = files(&root().join("tests/vectors"))
        .into_iter()
        .filter(|path| path.is_dir())
        .flat_map(|directory| files(&directory))
        .filter(|path| path.extension().is_some_and(|extension| extension == "in"))
        .collect();
    inputs.sort();
    inputs.into_iter().map(program_vector).collect()
}

/// The calls of `tests/vectors/csv/csv.txt`.
pub fn csv_vectors() -> Vec<CsvVector> {
    calls("csv/csv.txt", csv_vector)
}

/// The calls of `tests/vectors/trace/trace.txt`.
pub fn trace_vectors() -> Vec<TraceVector> {
    calls("trace/trace.txt", trace_vector)
}

/// The calls of a file in `tests/vectors`, one a line; the `README.md` there has the format.
pub(super) fn calls<V>(file: &str, call: fn(&mut Tokens) -> V) -> Vec<V> {
    let text = String::from_utf8(read(&root().join("tests/vectors").join(file))).expect("text");
    let vector = |line: &str| {
        let mut tokens = Tokens(line.split(' '));
        let vector = call(&mut tokens);
        assert!(tokens.0.next().is_none(), "more words in the line");
        vector
    };
    text.lines().map(vector).collect()
}

/// FNV-1a of 64 bits over words, each as eight bytes, lowest first.
pub fn fnv(words: &[u64]) -> u64 {
    let bytes = words.iter().flat_map(|word| word.to_le_bytes());
    bytes.fold(0xcbf2_9ce4_8422_2325, |hash, byte| {
        (hash ^ u64::from(byte)).wrapping_mul(0x100_0000_01b3)
    })
}

fn root() -> PathBuf {
    PathBuf::from(env!("CARGO_MANIFEST_DIR")).join("../..")
}

fn files(directory: &Path) -> Vec<PathBuf> {
    let entries =
        fs::read_dir(directory).unwrap_or_else(|e| panic!("{}: {e}", directory.display()));
    entries.map(|entry| entry.expect("a directory entry").path()).collect()
}

fn read(path: &Path) -> Vec<u8> {
    fs::read(path).unwrap_or_else(|e| panic!("{}: {e}", path.display()))
}

fn program_vector(input: PathBuf) -> ProgramVector {
    ProgramVector {
        name: input.display().to_string(),
        input: read(&input),
        output: read(&input.with_extension("out")),
    }
}

/// Numbers in groups of seven bits, highest first, top bit on all bytes but the last.
struct Numbers {
    bytes: Vec<u8>,
    at: usize,
}

impl Numbers {
    fn next(&mut self) -> u64 {
        let mut number = 0;
        loop {
            let byte = self.bytes[self.at];
            self.at += 1;
            number = number << 7 | u64::from(byte & 0x7f);
            if byte < 0x80 {
                return number;
            }
        }
    }
}

/// The state's length, the step, the answer, the checksum, and the words that are not 0 as places and values.
fn step_vector(numbers: &mut Numbers) -> StepVector {
    let mut words = vec![0; numbers.next() as usize];
    let kind = numbers.next();
    let step = Step::new(kind, [(); 4].map(|_| numbers.next()));
    let (answer, check, count) = (numbers.next(), numbers.next(), numbers.next());
    for _ in 0..count {
        let place = numbers.next() as usize;
        words[place] = numbers.next();
    }
    StepVector { words, step, answer, check }
}

/// The words of a line.
pub(super) struct Tokens<'a>(std::str::Split<'a, char>);

impl<'a> Tokens<'a> {
    pub(super) fn next(&mut self) -> &'a str {
        self.0.next().expect("one more word in the line")
    }

    pub(super) fn expect(&mut self, word: &str) {
        assert_eq!(self.next(), word);
    }

    pub(super) fn number(&mut self) -> u64 {
        self.next().parse().expect("a number")
    }

    /// The length of something lent.
    pub(super) fn length(&mut self) -> usize {
        self.number() as usize
    }

    /// How many, then those numbers.
    pub(super) fn words(&mut self) -> Vec<u64> {
        (0..self.number()).map(|_| self.number()).collect()
    }

    /// A state: its length, then places and values of the words that are not 0.
    pub(super) fn state(&mut self) -> Vec<u64> {
        let mut words = vec![0; self.length()];
        for _ in 0..self.number() {
            let place = self.number() as usize;
            words[place] = self.number();
        }
        words
    }

    /// The letter x and two hexadecimal digits for each byte.
    pub(super) fn bytes(&mut self) -> Vec<u8> {
        let digits = self.next().strip_prefix('x').expect("bytes").as_bytes();
        let pairs = digits.chunks(2).map(|pair| std::str::from_utf8(pair).expect("digits"));
        pairs.map(|pair| u8::from_str_radix(pair, 16).expect("a byte")).collect()
    }

    /// The lengths of an output and of its count, the answer, and what is written to both.
    pub(super) fn outputs<T>(&mut self, elements: fn(&mut Self) -> Vec<T>) -> Outputs<T> {
        let (out_len, count_len) = (self.length(), self.length());
        self.expect("=");
        let (answer, out, count) = (self.number(), elements(self), self.words());
        Outputs { out_len, count_len, answer, out, count }
    }
}

fn csv_vector(tokens: &mut Tokens) -> CsvVector {
    tokens.expect("csv");
    CsvVector { words: tokens.state(), outputs: tokens.outputs(Tokens::bytes) }
}

fn trace_vector(tokens: &mut Tokens) -> TraceVector {
    tokens.expect("trace");
    let words = tokens.state();
    let [shard, index, host] = [(); 3].map(|_| tokens.number());
    let seat = Seat { shard, index, host };
    TraceVector { words, seat, outputs: tokens.outputs(Tokens::words) }
}
