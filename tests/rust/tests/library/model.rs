//! `fadzgime_model`.

use fadzgime_tests::generators::random::{Random, cases};
use fadzgime_tests::generators::traces::{Profile, any_trace, damage_trace, random_header, random_trace};
use fadzgime_tests::oracle::letter::{Header, Letter};
use fadzgime_tests::oracle::model::{Shown, show_model};
use fadzgime_tests::oracle::trace::Trace;
use fadzgime_tests::proved::library::{self, MODEL_ANSWER, MODEL_OUTPUT};

use crate::lent::Lent;

/// The oracle's answer in numbers, and what is written.
fn expected(bytes: &[u8], room: usize) -> ([u64; MODEL_ANSWER], Vec<u8>) {
    match show_model(bytes, room) {
        Err(refusal) => ([u64::from(refusal.number), refusal.place as u64, 0, 0], vec![]),
        Ok(Shown::Infeasible(letter)) => ([0, 0, letter as u64, 0], vec![]),
        Ok(Shown::Feasible(model)) => ([0, 0, 0, model.pack().len() as u64], model.pack()),
    }
}

fn check(bytes: &[u8], room: usize) {
    let (mut trace, mut out) = (Lent::holding(bytes), Lent::new(room));
    let mut answer = Lent::new(MODEL_ANSWER + 2);
    library::model(trace.lend(), out.lend(), answer.lend());
    trace.assert_as_lent();
    let (expected, written) = expected(bytes, room);
    assert_eq!(answer.look()[..MODEL_ANSWER], expected, "{bytes:02x?} room {room}");
    answer.assert_begins(&expected);
    out.assert_begins(&written);
}

/// The length of the model, for outputs that just fit and that just do not.
fn length_of_model(bytes: &[u8]) -> usize {
    match show_model(bytes, usize::MAX) {
        Ok(Shown::Feasible(model)) => model.pack().len(),
        _ => 0,
    }
}

fn check_with_rooms(random: &mut Random, bytes: &[u8]) {
    let exact = length_of_model(bytes);
    let room = match random.below(6) {
        0 => exact,
        1 => exact.saturating_sub(1),
        2 => random.below(exact + 1),
        _ => exact + random.below(40),
    };
    check(bytes, room);
}

#[test]
fn random_traces() {
    for seed in 0..cases(100_000) {
        let random = &mut Random::new(seed);
        let bytes = any_trace(random, 40).pack();
        check_with_rooms(random, &bytes);
    }
}

/// Traces that need not be coherent, with many equal tests.
#[test]
fn incoherent_traces() {
    for seed in 0..cases(20_000) {
        let random = &mut Random::new(seed);
        let header = random_header(random);
        let length = random.below(60);
        let profile = Profile { weights: [1, 4, 2, 1], incoherent: 1, infeasible: 50, repeats: 20 };
        let bytes = random_trace(random, header, profile, length).pack();
        check_with_rooms(random, &bytes);
    }
}

#[test]
fn damaged_traces() {
    for seed in 0..cases(50_000) {
        let random = &mut Random::new(seed);
        let trace = any_trace(random, 12);
        check(&damage_trace(random, &trace), 200);
    }
}

/// About as many letters as there may be.
#[test]
fn longest_traces() {
    for seed in 0..cases(12) {
        let random = &mut Random::new(seed);
        let header = random_header(random);
        let profile = Profile { weights: [1, 6, 1, 0], incoherent: 1, infeasible: 1000, repeats: 1000 };
        let length = 1020 + random.below(5);
        let mut trace = random_trace(random, header, profile, length);
        check(&trace.pack(), MODEL_OUTPUT);
        trace.letters.resize(1024, trace.letters[0]);
        check(&trace.pack(), MODEL_OUTPUT);
        trace.letters.push(trace.letters[0]);
        check(&trace.pack(), MODEL_OUTPUT);
        let mut bytes = trace.pack();
        bytes[3] |= 1;
        check(&bytes, MODEL_OUTPUT);
    }
    // The largest model: as many registers as there may be, and a new row at each letter.
    let header = Header::new(8, &[1]);
    let letters = vec![Letter::Apply { target: 0, function: 0, first: 0, second: None }; 1024];
    let bytes = Trace { header, letters }.pack();
    assert_eq!(length_of_model(&bytes), MODEL_OUTPUT);
    check(&bytes, MODEL_OUTPUT);
    check(&bytes, MODEL_OUTPUT - 1);
}

/// Where the answer is too short, nothing is done: every lent byte stays.
#[test]
fn short_answers() {
    for length in 0..MODEL_ANSWER {
        for bytes in [[0x32, 0x00].as_slice(), &[0xff]] {
            let (mut trace, mut out, mut answer) = (Lent::holding(bytes), Lent::new(40), Lent::new(length));
            library::model(trace.lend(), out.lend(), answer.lend());
            trace.assert_as_lent();
            out.assert_as_lent();
            answer.assert_as_lent();
        }
    }
}
