//! Stable histories, transcripts and reports: what they hold, and outputs that are too short.

use penkwadar_tests::plain;
use penkwadar_tests::step::Step;
use penkwadar_tests::testing::any_log::any_log;
use penkwadar_tests::testing::logs::{push_step, spoil};
use penkwadar_tests::testing::random::Random;
use penkwadar_tests::testing::seats::{any_seat, rejection};
use penkwadar_tests::testing::settings;
use penkwadar_tests::testing::sides;
use penkwadar_tests::testing::states::{spoil_state, well_formed};
use penkwadar_tests::testing::steps::odd_number;
use penkwadar_tests::testing::temper::Temper;
use penkwadar_tests::testing::triplet::Triplet;
use penkwadar_tests::view::{SHARD_WORDS, View};

#[test]
fn stable_histories() {
    let mut random = Random::new(settings::seed());
    let mut answers = [0u64; 10];
    for run in 0..4_000 {
        let shards = 2 + run % 7;
        let mut words = well_formed(&mut random, shards);
        let shard = match random.below(6) {
            0 => odd_number(&mut random),
            _ => random.below(shards),
        };
        let expected = match shard < shards {
            true => View::new(&words).longest_stable(shard).to_vec(),
            false => Vec::new(),
        };
        let (out_len, count_len) = (random.place(60), random.weighted(&[5, 90, 5]));
        let out_of_form = spoil_state(&mut random, &mut words);
        let answer = match () {
            _ if count_len == 0 => 8,
            _ if !words.len().is_multiple_of(SHARD_WORDS) => 1,
            _ if shard >= shards => 7,
            _ if out_of_form => 9,
            _ if expected.len() > out_len => 8,
            _ => 0,
        };
        let mut out = Triplet::filled(out_len, random.word());
        let copied = sides::stable_history(&mut Triplet::new(&words), shard, &mut out, count_len);
        assert_eq!(copied.err().unwrap_or(0), answer, "shard {shard} of {shards}");
        answers[answer as usize] += 1;
        if let Ok(count) = copied {
            assert_eq!(out.get()[..count], expected, "shard {shard} of {shards}");
        }
    }
    println!("answers: {answers:?}");
    assert!([0, 1, 7, 8, 9].iter().all(|&answer| answers[answer] > 100), "{answers:?}");
}

#[test]
fn stable_prefixes() {
    let mut random = Random::new(settings::seed() + 4);
    let mut answers = [0u64; 12];
    for run in 0..8_000 {
        let shards = 2 + run % 7;
        let mut words = well_formed(&mut random, shards);
        let view = View::new(&words);
        let seat = any_seat(&mut random, view);
        let rejected = rejection(view, seat);
        let expected = (rejected == 0).then(|| {
            let replica = view.replica(seat.shard, seat.index, seat.host).expect("a member");
            replica.stable().to_vec()
        });
        let room = expected.as_ref().map_or(9, Vec::len);
        let out_len = match random.below(5) {
            0 => random.place(60),
            1 => room.saturating_sub(1),
            2 => room,
            _ => 56,
        };
        let count_len = random.weighted(&[5, 90, 5]);
        let out_of_form = spoil_state(&mut random, &mut words);
        let answer = match &expected {
            _ if count_len == 0 => 8,
            _ if !words.len().is_multiple_of(SHARD_WORDS) => 1,
            _ if rejected == 7 => 7,
            _ if out_of_form => 9,
            Some(stable) if stable.len() > out_len => 8,
            _ => rejected,
        };
        let mut out = Triplet::filled(out_len, random.word());
        let copied = sides::stable_prefix(&mut Triplet::new(&words), seat, &mut out, count_len);
        assert_eq!(copied.err().unwrap_or(0), answer, "{seat:?} of {shards}");
        answers[answer as usize] += 1;
        if let Ok(count) = copied {
            assert_eq!(Some(&out.get()[..count]), expected.as_deref(), "{seat:?} of {shards}");
        }
    }
    println!("answers: {answers:?}");
    assert!([0, 1, 7, 8, 9, 10, 11].iter().all(|&answer| answers[answer] > 100), "{answers:?}");
}

/// A log for the program's plan: mostly accepted steps, sometimes spoiled.
fn program_log(random: &mut Random) -> Vec<u8> {
    let mut words = vec![0; 2 * SHARD_WORDS];
    plain::setup(&mut words, &[1, 0b0011, 0, 0, 0b1100, 2]).expect("the program's plan");
    let (temper, steps) = (Temper::any(random), random.below(800));
    let mut log = any_log(random, &words, &temper, steps);
    if random.chance(40) {
        spoil(random, &mut log);
    }
    log
}

#[test]
fn transcripts() {
    let mut random = Random::new(settings::seed() + 1);
    let (mut ended, mut damaged) = (0, 0);
    for _ in 0..300 {
        let log = program_log(&mut random);
        let mut out = Triplet::filled(50_000, 0xee);
        let length = sides::transcript(&log, &mut out, 1).expect("room for any text");
        let text = out.get()[..length].to_vec();
        let last = text.strip_suffix(b"\n").expect("a last newline");
        let last = last.rsplit(|&byte| byte == b'\n').next().expect("a last line");
        ended += u64::from(last.starts_with(b"ended "));
        damaged += u64::from(last.starts_with(b"damaged "));
        // Just enough room, a byte too little, hardly any, and no count.
        for (room, count_len, answer) in [
            (length, 2, Ok(length)),
            (length - 1, 1, Err(8)),
            (random.place(length), 1, Err(8)),
            (50_000, 0, Err(8)),
        ] {
            let mut out = Triplet::filled(room, random.word() as u8);
            assert_eq!(
                sides::transcript(&log, &mut out, count_len),
                answer,
                "{room} bytes of room"
            );
            assert!(answer.is_err() || out.get()[..length] == text);
        }
    }
    println!("{ended} ended, {damaged} damaged");
    assert!(ended > 50 && damaged > 50);
}

/// Around the longest log: 16,384 bytes are run, one more is too long.
#[test]
fn longest_logs() {
    let mut log = Vec::new();
    while log.len() < 16_384 {
        push_step(&mut log, Step::wedge(0, 1, 0));
    }
    let mut out = Triplet::filled(50_000, 0xee);
    let length = sides::transcript(&log, &mut out, 1).expect("room for any text");
    let text = &out.get()[..length];
    assert!(text.ends_with(b"\n4096 4 12\nzone 0\nzone 1\nended 4096 4095 16384\n"));
    log.push(0);
    for room in 0..12 {
        let mut out = Triplet::filled(room, 0xee);
        let answer = sides::transcript(&log, &mut out, 1);
        assert_eq!(answer, if room < 9 { Err(8) } else { Ok(9) }, "{room} bytes of room");
        assert!(answer.is_err() || out.get().starts_with(b"too long\n"));
    }
}

/// The longest text: every line of the longest sort, and both stable histories full of the longest entries.
#[test]
fn longest_text() {
    let mut log = Vec::new();
    for shard in 0..2 {
        let (first, second) = (2 * shard, 2 * shard + 1);
        for take in 0..56 {
            push_step(&mut log, Step::add(shard, 1, 4_000_000_000 + take));
        }
        push_step(&mut log, Step::adopt(shard, 1, second));
        push_step(&mut log, Step::learn(shard, 1, first, 56));
    }
    while log.len() + 4 <= 16_384 {
        push_step(&mut log, Step::wedge(0, 2, 0));
    }
    let mut out = Triplet::filled(plain::TEXT_BYTES, 0xee);
    let length = sides::transcript(&log, &mut out, 1).expect("room for any text");
    let text = String::from_utf8(out.get()[..length].to_vec()).expect("text");
    let zones = text.lines().filter(|line| line.starts_with("zone") && line.len() == 6 + 56 * 11);
    assert_eq!(zones.count(), 2);
}

/// A report needs four words, which is asked for before the state is looked at.
#[test]
fn short_reports() {
    let mut random = Random::new(settings::seed() + 2);
    let good = well_formed(&mut random, 2);
    let mut out_of_form = good.clone();
    out_of_form[1] = 9;
    for report_len in 0..8 {
        for (words, rejection) in [(&good[..], 0), (&out_of_form[..], 9), (&good[1..], 1)] {
            let replayed = sides::replay_into(&mut Triplet::new(words), &[], 0, report_len);
            let answer = if report_len < 4 { 8 } else { rejection };
            assert_eq!(replayed.answer, answer, "report of {report_len} words");
            assert_eq!(replayed.report, (answer == 0).then_some([0; 4]));
        }
        let damaged = sides::replay_into(&mut Triplet::new(&good), &[8], 1, report_len);
        assert_eq!(damaged.answer, if report_len < 4 { 8 } else { 3 });
    }
}

/// Before each step: ended, then spent, then read.
#[test]
fn budgets() {
    let mut random = Random::new(settings::seed() + 3);
    let good = well_formed(&mut random, 2);
    let twice = [4, 0, 8, 0, 4, 1, 8, 0];
    let damaged = [4, 0, 8, 0, 4, 1, 8, 0, 0];
    let cases: [(&[u8], u64, u64, [u64; 3]); 8] = [
        (&[], 0, 0, [0, 0, 0]),
        (&[], u64::MAX, 0, [0, 0, 0]),
        (&[8], 0, 0, [1, 0, 0]),
        (&twice, 0, 0, [1, 0, 0]),
        (&twice, 1, 0, [1, 1, 4]),
        (&twice, 2, 0, [0, 2, 8]),
        (&damaged, 2, 0, [1, 2, 8]),
        (&damaged, 3, 4, [2, 2, 8]),
    ];
    for (log, budget, answer, [stop, tried, bytes]) in cases {
        let replayed = sides::replay(&mut Triplet::new(&good), log, budget);
        let tallied = sides::replay_tally(&mut Triplet::new(&good), log, budget);
        assert_eq!(tallied.replayed, replayed, "with a tally: {log:?} with {budget}");
        let report = replayed.report.expect("a report");
        assert_eq!(replayed.answer, answer, "{log:?} with {budget}");
        assert_eq!(
            [report[0], report[1], report[3]],
            [stop, tried, bytes],
            "{log:?} with {budget}"
        );
    }
}
