//! Reader and writer on random steps and bytes.

use penkwadar_tests::step::Step;
use penkwadar_tests::testing::logs::{
    KINDS, is_writable, push_number, push_step, used, writable_step,
};
use penkwadar_tests::testing::random::Random;
use penkwadar_tests::testing::settings;
use penkwadar_tests::testing::sides;
use penkwadar_tests::testing::steps::{arbitrary, odd_number};
use penkwadar_tests::testing::triplet::Triplet;

fn words(step: Step, after: usize) -> [u64; 6] {
    let [a, b, c, d] = step.numbers;
    [step.kind, a, b, c, d, after as u64]
}

/// Steps of all sorts: writable ones, ones with a number too large, ones with unused numbers, odd kinds.
fn any_step(random: &mut Random) -> Step {
    let mut step = writable_step(random);
    match random.below(8) {
        0 => step = arbitrary(random),
        1 => step.kind = odd_number(random),
        2 => step.numbers[random.place(4)] = odd_number(random),
        3 => step.numbers[random.place(4)] = (1 << 35) - random.below(2),
        _ => (),
    }
    step
}

/// The writer's rejection, from its definition: kind, numbers, room.
fn expected(step: Step, room: usize, count_len: usize) -> Result<usize, u64> {
    let mut bytes = Vec::new();
    push_step(&mut bytes, step);
    match step.kind {
        _ if count_len == 0 => Err(8),
        8..=31 => Err(3),
        0 | 32.. => Err(4),
        _ if !is_writable(step) => Err(7),
        _ if bytes.len() > room => Err(8),
        _ => Ok(bytes.len()),
    }
}

#[test]
fn write_and_read_back() {
    let mut random = Random::new(settings::seed());
    let mut answers = [0u64; 9];
    let mut widths = [0u64; 6];
    for _ in 0..300_000 {
        let step = any_step(&mut random);
        let length = random.place(40);
        let at = match random.below(20) {
            0 => usize::MAX - random.place(3),
            1 => length + random.place(3),
            _ => random.place(24),
        };
        let count_len = random.weighted(&[2, 90, 8]);
        let mut out = Triplet::filled(length, random.word() as u8);
        let written = sides::write_step(&mut out, at, step, count_len);
        let room = length.saturating_sub(at);
        assert_eq!(written, expected(step, room, count_len), "{step:?} in {room} bytes");
        answers[written.err().unwrap_or(0) as usize] += 1;
        if let Ok(count) = written {
            assert_eq!(sides::read_step(out.get(), at), Ok(words(step, at + count)), "{step:?}");
            note_widths(step, &mut widths);
        }
    }
    println!("writer's answers: {answers:?}; numbers by width: {widths:?}");
    assert!([0, 3, 4, 7, 8].iter().all(|&answer| answers[answer] > 1_000), "{answers:?}");
    assert!(widths[1..].iter().all(|&count| count > 1_000), "{widths:?}");
}

fn note_widths(step: Step, widths: &mut [u64; 6]) {
    for &number in &step.numbers[..used(step.kind)] {
        let mut bytes = Vec::new();
        push_number(&mut bytes, number);
        widths[bytes.len()] += 1;
    }
}

/// Bytes of which many go on, end in 0 or begin a step.
fn any_byte(random: &mut Random) -> u8 {
    match random.below(8) {
        0 => random.word() as u8,
        1 => 0,
        2 => 0x80,
        3 | 4 => random.word() as u8 | 0x80,
        5 => random.below(34) as u8,
        _ => random.within(KINDS) as u8,
    }
}

/// Whatever reads as a step is written to the very bytes that were read.
#[test]
fn read_and_write_back() {
    let mut random = Random::new(settings::seed() + 1);
    let mut answers = [0u64; 9];
    let (mut steps, mut ends) = (0u64, 0u64);
    for _ in 0..300_000 {
        let log: Vec<u8> = (0..random.place(26)).map(|_| any_byte(&mut random)).collect();
        let at = match random.below(10) {
            0 => log.len() + random.place(3),
            1 => usize::MAX - random.place(3),
            _ => random.place(log.len() + 1),
        };
        let step_len = 6 + random.place(3);
        let read = sides::read_step_into(&log, at, step_len);
        answers[read.err().unwrap_or(0) as usize] += 1;
        assert!(at < log.len() || read == Ok([0; 6]), "no bytes left at {at} of {log:02x?}");
        match read {
            Ok([0, ..]) => ends += 1,
            Ok([kind, a, b, c, d, after]) => {
                steps += 1;
                let mut bytes = Vec::new();
                push_step(&mut bytes, Step::new(kind, [a, b, c, d]));
                assert_eq!(log[at..after as usize], bytes, "{log:02x?} at {at}");
            }
            Err(_) => (),
        }
    }
    println!("reader's answers: {answers:?}; steps {steps}, ends {ends}");
    assert!([3, 4, 5, 6].iter().all(|&answer| answers[answer] > 1_000), "{answers:?}");
    assert!(steps > 1_000 && ends > 1_000);
}

#[test]
fn short_outputs() {
    let mut log = Vec::new();
    push_step(&mut log, Step::wedge(1, 2, 5));
    for step_len in 0..9 {
        for (bytes, rejection) in [(&log[..], 0), (&[], 0), (&[8], 3), (&[0], 4), (&[0x80], 5)] {
            let read = sides::read_step_into(bytes, 0, step_len);
            let answer = if step_len < 6 { 8 } else { rejection };
            assert_eq!(read.err().unwrap_or(0), answer, "{bytes:02x?} into {step_len} words");
        }
    }
    // The room is asked for last, the count first.
    let mut out = Triplet::filled(3, 0xee);
    for (step, answer) in
        [(Step::wedge(1, 2, 5), 8), (Step::new(9, [0; 4]), 3), (Step::default(), 4)]
    {
        assert_eq!(sides::write_step(&mut out, 0, step, 1), Err(answer), "{step:?}");
        assert_eq!(sides::write_step(&mut out, 0, step, 0), Err(8), "{step:?} without a count");
    }
    assert_eq!(sides::write_step(&mut out, 0, Step::new(4, [1, 2, 5, 1]), 1), Err(7));
    assert_eq!(sides::write_step(&mut out, 0, Step::wedge(1, 2, 1 << 35), 1), Err(7));
}
