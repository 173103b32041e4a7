//! `fadzgime_monitor`.

use fadzgime_tests::answers::EQUAL_SIDES_TRACES;
use fadzgime_tests::fast::monitor::{FastMonitor, fast_monitor};
use fadzgime_tests::generators::random::{Random, cases};
use fadzgime_tests::generators::traces::{any_trace, damage_trace, random_header, random_letter};
use fadzgime_tests::generators::windows::{all_letters, first_traces};
use fadzgime_tests::oracle::letter::{Header, Letter};
use fadzgime_tests::oracle::monitor::{Judgement, monitor};
use fadzgime_tests::oracle::refusal::Refusal;
use fadzgime_tests::oracle::trace::Trace;
use fadzgime_tests::proved::library::{self, MONITOR_ANSWER};

use crate::lent::Lent;

/// An answer in numbers.
fn numbers(found: Result<Judgement, Refusal>) -> [u64; MONITOR_ANSWER] {
    match found {
        Err(refusal) => [u64::from(refusal.number), refusal.place as u64, 0, 0],
        Ok(found) => [0, 0, found.incoherent.unwrap_or(0) as u64, found.infeasible.unwrap_or(0) as u64],
    }
}

fn check(bytes: &[u8]) {
    check_against(bytes, numbers(monitor(bytes)));
}

fn check_against(bytes: &[u8], expected: [u64; MONITOR_ANSWER]) {
    let mut trace = Lent::holding(bytes);
    let mut answer = Lent::new(MONITOR_ANSWER + 2);
    library::monitor(trace.lend(), answer.lend());
    trace.assert_as_lent();
    assert_eq!(answer.look()[..MONITOR_ANSWER], expected, "{:02x?}", &bytes[..bytes.len().min(400)]);
    answer.assert_begins(&expected);
}

#[test]
fn random_traces() {
    for seed in 0..cases(100_000) {
        check(&any_trace(&mut Random::new(seed), 40).pack());
    }
}

#[test]
fn longer_traces() {
    for seed in 0..cases(100) {
        check(&any_trace(&mut Random::new(seed), 500).pack());
    }
}

/// Long coherent traces, by the fast monitor, which the oracle's tests hold to the
/// definitions.
#[test]
fn very_long_traces() {
    for seed in 0..cases(20) {
        let random = &mut Random::new(seed);
        let header = random_header(random);
        let mut monitor = FastMonitor::start(header);
        let mut letters = Vec::new();
        for _ in 0..100_000 {
            let letter = random_letter(random, &header, [4, 4, 2, 1]);
            if monitor.judge(&letter) || random.once_in(200_000) {
                monitor.perform(&letter);
                letters.push(letter);
            }
        }
        let bytes = Trace { header, letters }.pack();
        check_against(&bytes, numbers(fast_monitor(&bytes)));
    }
}

/// A trace with a copy of a register to itself, which changes nothing, so many times
/// from some letter on.
fn with_idle_letters(random: &mut Random, trace: &Trace, count: usize) -> Trace {
    let idle = Letter::Copy { target: 0, source: 0 };
    let at = random.below(trace.letters.len() + 1);
    let mut letters = trace.letters[..at].to_vec();
    letters.resize(at + count, idle);
    letters.extend_from_slice(&trace.letters[at..]);
    Trace { header: trace.header, letters }
}

/// From so many letters on the classes of a run lie in slots; here the letters before,
/// between and behind them are random.
#[test]
fn letters_on_slots() {
    for seed in 0..cases(20_000) {
        let random = &mut Random::new(seed);
        let trace = any_trace(random, 40);
        let long = with_idle_letters(random, &trace, 512);
        let bytes = long.pack();
        check_against(&bytes, numbers(fast_monitor(&bytes)));
        let damaged = damage_trace(random, &long);
        check_against(&damaged, numbers(fast_monitor(&damaged)));
    }
}

/// Traces that test what is already equal, against what was settled: as they stand, and behind so many letters that
/// change nothing that the classes lie in slots.
#[test]
fn equal_sides() {
    for judged in &EQUAL_SIDES_TRACES {
        let bytes = judged.bytes();
        for idle in [0, 512] {
            let long = [&bytes[..2], &vec![0; 2 * idle], &bytes[2..]].concat();
            let numbers = judged.numbers().map(|number| if number == 0 { 0 } else { (number + idle) as u64 });
            check_against(&long, [0, 0, numbers[0], numbers[1]]);
        }
    }
}

/// Every letter after every window under a header, then every further letters up to
/// so many: the windows after the letter are told apart by what comes next.
fn check_windows(header: Header, most: usize, further: usize) {
    let letters = all_letters(&header);
    let mut suffixes: Vec<Vec<Letter>> = vec![vec![]];
    for _ in 0..=further {
        let longer = |suffix: &Vec<Letter>| {
            letters.iter().map(|l| [suffix.as_slice(), &[*l]].concat()).collect::<Vec<_>>()
        };
        suffixes = suffixes.iter().flat_map(longer).collect();
    }
    for first in first_traces(header, most) {
        for suffix in &suffixes {
            check(&Trace { header, letters: [first.as_slice(), suffix].concat() }.pack());
        }
    }
}

#[test]
fn every_window_of_two_registers() {
    check_windows(Header::new(2, &[1]), usize::MAX, 2);
    check_windows(Header::new(2, &[2]), usize::MAX, 2);
    check_windows(Header::new(2, &[1, 1]), usize::MAX, 1);
}

#[test]
fn every_window_of_three_registers() {
    check_windows(Header::new(3, &[]), usize::MAX, 1);
    check_windows(Header::new(3, &[1]), usize::MAX, 0);
    check_windows(Header::new(3, &[2]), 1_000, 0);
    check_windows(Header::new(4, &[]), usize::MAX, 1);
}

#[test]
fn damaged_traces() {
    for seed in 0..cases(50_000) {
        let random = &mut Random::new(seed);
        let trace = any_trace(random, 12);
        check(&damage_trace(random, &trace));
    }
}

#[test]
fn every_header() {
    for word in 0..=u16::MAX {
        check(&word.to_be_bytes());
    }
}

/// Every word as the only letter, under headers that differ in every count.
#[test]
fn every_letter() {
    for header in
        [Header::new(1, &[]), Header::new(3, &[1]), Header::new(5, &[2, 1, 2]), Header::new(8, &[1, 2, 1, 2])]
    {
        for word in 0..=u16::MAX {
            check(&[header.pack().to_be_bytes(), word.to_be_bytes()].concat());
        }
    }
}

#[test]
fn short_lengths() {
    for length in 0..6 {
        check(&[0x32, 0x00, 0x44, 0x00, 0x80, 0x08][..length]);
        check(&vec![0xff; length]);
    }
}

/// Where the answer is too short, nothing is done: every lent byte stays.
#[test]
fn short_answers() {
    for length in 0..MONITOR_ANSWER {
        for bytes in [[0x32, 0x00].as_slice(), &[0xff]] {
            let (mut trace, mut answer) = (Lent::holding(bytes), Lent::new(length));
            library::monitor(trace.lend(), answer.lend());
            trace.assert_as_lent();
            answer.assert_as_lent();
        }
    }
}
