//! The text for spreadsheets: what it holds, buffers of any length, states out of form, and the longest text.

use penkwadar_tests::proved::{CSV_BYTES, Rejection, State};
use penkwadar_tests::testing::random::Random;
use penkwadar_tests::testing::settings;
use penkwadar_tests::testing::sides;
use penkwadar_tests::testing::states::{spoil_state, well_formed};
use penkwadar_tests::testing::triplet::Triplet;
use penkwadar_tests::view::{HISTORY, SHARD_WORDS, View, issue};

const HEADER: &str = "zone,place,kind,entry\r\n";

/// The text, put together from the replicas of the state by the standard library's formatting.
fn expected(words: &[u64], shards: u64) -> String {
    let mut text = String::from(HEADER);
    for shard in 0..shards {
        for (place, entry) in View::new(words).longest_stable(shard).iter().enumerate() {
            let kind = if *entry < 1 << 32 { "take" } else { "issue" };
            text += &format!("{shard},{place},{kind},{entry}\r\n");
        }
    }
    text
}

/// Room for a text of this length, or too little of it.
fn any_room(random: &mut Random, length: usize) -> usize {
    match random.below(5) {
        0 => random.place(length),
        1 => length - 1,
        2 => length,
        3 => length + 1 + random.place(100),
        _ => CSV_BYTES,
    }
}

#[test]
fn borrowed_states() {
    let mut random = Random::new(settings::seed() + 5);
    let (mut answers, mut takes, mut issues, mut exact) = ([0u64; 10], 0, 0, 0);
    for run in 0..4_000 {
        let shards = 2 + run % 7;
        let mut words = well_formed(&mut random, shards);
        let text = expected(&words, shards);
        takes += u64::from(text.contains(",take,"));
        issues += u64::from(text.contains(",issue,"));
        let out_len = any_room(&mut random, text.len());
        let count_len = random.weighted(&[5, 90, 5]);
        let out_of_form = spoil_state(&mut random, &mut words);
        let answer = match () {
            _ if count_len == 0 => 8,
            _ if !words.len().is_multiple_of(SHARD_WORDS) => 1,
            _ if out_of_form => 9,
            _ if text.len() > out_len => 8,
            _ => 0,
        };
        let fill = random.word() as u8;
        let mut out = Triplet::filled(out_len, fill);
        let written = sides::csv(&mut Triplet::new(&words), &mut out, count_len);
        assert_eq!(written.err().unwrap_or(0), answer, "{shards} shards, {out_len} bytes");
        answers[answer as usize] += 1;
        if let Ok(length) = written {
            let (got, rest) = out.get().split_at(length);
            assert!(got == text.as_bytes(), "the text of {shards} shards");
            assert!(rest.iter().all(|&byte| byte == fill), "written past the text");
            exact += u64::from(rest.is_empty());
        }
    }
    println!(
        "answers: {answers:?}, {takes} texts with takes, {issues} with issues, {exact} outputs just long enough"
    );
    assert!([0, 1, 8, 9].iter().all(|&answer| answers[answer] > 100), "{answers:?}");
    assert!(takes > 500 && issues > 500 && exact > 300);
}

/// Lengths that are no state's, and words of a good state that are spoilt one by one.
#[test]
fn states_out_of_form() {
    let mut random = Random::new(settings::seed() + 6);
    let mut out = Triplet::filled(CSV_BYTES, 0xee);
    for length in [0, 1, SHARD_WORDS, 2 * SHARD_WORDS - 1, 2 * SHARD_WORDS + 1, 9 * SHARD_WORDS] {
        let answer = sides::csv(&mut Triplet::new(&vec![0; length]), &mut out, 1);
        assert_eq!(answer, Err(1), "{length} words");
    }
    let words = well_formed(&mut random, 2);
    for place in (0..words.len()).step_by(7) {
        let mut state = Triplet::new(&words);
        state.edit(|words| words[place] = u64::MAX);
        assert_eq!(sides::csv(&mut state, &mut out, 1), Err(9), "word {place}");
    }
    assert!(out.get().iter().all(|&byte| byte == 0xee));
}

/// After setup there are no entries: the header alone, for every number of shards.
#[test]
fn empty_lists() {
    for shards in 2..=8 {
        let plan: Vec<u64> = (0..shards).flat_map(|z| [(z + 1) % shards, 0b11, 0]).collect();
        let state = State::setup(&plan).expect("a good plan");
        assert_eq!(state.csv().as_deref(), Ok(HEADER.as_bytes()));
        for room in 0..30 {
            let written =
                sides::csv(&mut Triplet::new(state.words()), &mut Triplet::filled(room, 7), 1);
            assert_eq!(written, if room < 23 { Err(8) } else { Ok(23) }, "{room} bytes of room");
        }
    }
}

/// Lists full of issues: no text is longer for so many shards, and this one is just as long as the bound.
#[test]
fn longest_text() {
    for shards in 2..=8 {
        let words = full_of_issues(shards);
        let text = expected(&words, shards);
        let length = text.len();
        assert_eq!(length as u64, 23 + 1_278 * shards);
        let mut out = Triplet::filled(length, 0xee);
        assert_eq!(sides::csv(&mut Triplet::new(&words), &mut out, 1), Ok(length));
        assert!(out.get() == text.as_bytes());
        let mut short = vec![0xee; length - 1];
        assert_eq!(State::from_words(words).csv_into(&mut short), Err(Rejection::OutputShort));
        assert!(short.iter().all(|&byte| byte == 0xee));
        assert_eq!(length == CSV_BYTES, shards == 8);
    }
}

/// A state whose first replicas have 56 stable issues each.
fn full_of_issues(shards: u64) -> Vec<u64> {
    let plan: Vec<u64> = (0..shards).flat_map(|z| [(z + 1) % shards, 0b11, 0]).collect();
    let mut words = State::setup(&plan).expect("a good plan").into_words();
    for shard in words.chunks_exact_mut(SHARD_WORDS) {
        let replica = &mut shard[64..128];
        (replica[1], replica[2]) = (HISTORY as u64, HISTORY as u64);
        for (place, entry) in (0..).zip(&mut replica[8..]) {
            *entry = issue(2 + place % 7, place % shards, 3, 0b1000 + place % 8);
        }
    }
    words
}
