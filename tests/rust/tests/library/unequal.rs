//! `fadzgime_monitor_unequal`: the unequal pairs of a monitor's window as one word. The tests of
//! `calls` ask for it after every letter too.

use std::array;

use fadzgime_tests::answers::UNEQUAL_WORDS;
use fadzgime_tests::fast::monitor::FastMonitor;
use fadzgime_tests::generators::random::{Random, cases};
use fadzgime_tests::generators::traces::{random_header, random_letter, unequal_trace};
use fadzgime_tests::generators::windows::{all_letters, first_traces};
use fadzgime_tests::oracle::letter::{Header, Letter};
use fadzgime_tests::proved::library::{
    self, MONITOR_STATE, NO_STATE, PUSH_ANSWER, STEP_ANSWER, STREAM_STATE, UNEQUAL_ANSWER,
};

use crate::calls::{check_words, with_any_words};
use crate::lent::Lent;

/// What a call that asks about a state answers for its bytes. They stay, and so do the numbers behind the answer's.
pub fn asked<const N: usize>(call: fn(&[u8], &mut [u64]), state: &[u8]) -> [u64; N] {
    let mut lent = Lent::holding(state);
    let mut answer = Lent::new(N + 2);
    call(lent.lend(), answer.lend());
    lent.assert_as_lent();
    let numbers: [u64; N] = array::from_fn(|i| answer.look()[i]);
    answer.assert_begins(&numbers);
    numbers
}

/// What the library answers for the bytes of a state.
fn answer(state: &[u8]) -> [u64; UNEQUAL_ANSWER] {
    asked(library::monitor_unequal, state)
}

/// The word of a monitor's state.
pub fn unequal_pairs(state: &[u8]) -> u64 {
    let [none, word] = answer(state);
    assert_eq!(none, 0, "it is a state");
    word
}

/// A monitor that runs under a header.
pub fn started(header: u16) -> Vec<u8> {
    let (mut state, mut answer) = (vec![0; MONITOR_STATE], [u64::MAX; STEP_ANSWER]);
    library::monitor_start(header, &mut state, &mut answer);
    assert_eq!(answer, [0, 0, 1, 0]);
    state
}

/// Takes the word of a letter.
pub fn step(letter: u16, state: &mut [u8]) -> [u64; STEP_ANSWER] {
    let mut answer = [u64::MAX; STEP_ANSWER];
    library::monitor_step(letter, state, &mut answer);
    answer
}

/// Traces whose words were settled; a word that is refused changes nothing behind any letter.
#[test]
fn settled_words() {
    for settled in &UNEQUAL_WORDS {
        let mut state = started(settled.words[0]);
        for (&letter, pairs) in settled.words[1..].iter().zip(settled.unequal.windows(2)) {
            assert_eq!(unequal_pairs(&state), pairs[0], "{}", settled.text);
            step(letter, &mut state);
            assert_eq!(unequal_pairs(&state), pairs[1], "{}", settled.text);
            assert_eq!(step(0xffff, &mut state)[0], 4);
            assert_eq!(unequal_pairs(&state), pairs[1], "{}", settled.text);
        }
    }
}

/// Many unequal tests, with words between that are refused.
#[test]
fn unequal_traces() {
    for seed in 0..cases(20_000) {
        let random = &mut Random::new(seed);
        let trace = unequal_trace(random, 60).pack();
        check_words(with_any_words(random, &trace));
    }
}

/// All pairs of so many registers, one after the other.
#[test]
fn all_pairs() {
    for registers in 1..=8 {
        let header = Header::new(registers, &[]);
        let mut state = started(header.pack());
        let mut word = 0;
        for second in 0..registers {
            for first in 0..second {
                word |= 1 << (8 * first + second) | 1 << (8 * second + first);
                step(Letter::Unequal { first, second }.pack(), &mut state);
                assert_eq!(unequal_pairs(&state), word);
            }
        }
        assert_eq!(word.count_ones(), u32::from(registers * (registers - 1)));
        step(Letter::Unequal { first: 0, second: 0 }.pack(), &mut state);
        assert_eq!(unequal_pairs(&state), 0, "infeasible");
    }
}

/// Long traces, by the fast monitor, which the oracle's tests hold to the definition.
#[test]
fn long_traces() {
    for seed in 0..cases(20) {
        let random = &mut Random::new(seed);
        let header = random_header(random);
        let weights = *random.pick(&[[4, 4, 1, 12], [4, 4, 2, 2]]);
        let (mut fast, mut state) = (FastMonitor::start(header), started(header.pack()));
        for _ in 0..20_000 {
            let letter = random_letter(random, &header, weights);
            let mut after = fast.clone();
            if after.perform(&letter) && !after.is_infeasible() {
                fast = after;
                assert_eq!(step(letter.pack(), &mut state), [0, 0, 1, 0], "seed {seed}");
                assert_eq!(unequal_pairs(&state), fast.unequal_word(), "seed {seed}");
            }
        }
    }
}

/// Every letter after every window under a header: whether the library's state and the fast monitor agree then.
pub fn check_windows(header: Header, most: usize, agree: fn(&[u8], &FastMonitor) -> bool) {
    for letters in first_traces(header, most) {
        let (mut fast, mut state) = (FastMonitor::start(header), started(header.pack()));
        for letter in &letters {
            fast.perform(letter);
            step(letter.pack(), &mut state);
        }
        for letter in all_letters(&header) {
            let (mut fast, mut state) = (fast.clone(), state.clone());
            let coherent = fast.perform(&letter);
            assert_eq!(step(letter.pack(), &mut state)[2], u64::from(coherent), "{letters:?} {letter:?}");
            assert!(agree(&state, &fast), "{letters:?} {letter:?}");
        }
    }
}

/// Both have the same word.
fn same_word(state: &[u8], fast: &FastMonitor) -> bool {
    unequal_pairs(state) == fast.unequal_word()
}

#[test]
fn every_window() {
    check_windows(Header::new(2, &[1]), usize::MAX, same_word);
    check_windows(Header::new(2, &[2]), usize::MAX, same_word);
    check_windows(Header::new(3, &[]), usize::MAX, same_word);
    check_windows(Header::new(3, &[1]), usize::MAX, same_word);
    check_windows(Header::new(3, &[2]), 1_000, same_word);
    check_windows(Header::new(4, &[]), usize::MAX, same_word);
}

/// A start that is refused leaves a monitor with its pairs; one that is not has none.
#[test]
fn starts() {
    let (mut state, mut answer) = (started(0x3000), [u64::MAX; STEP_ANSWER]);
    step(0xc008, &mut state);
    library::monitor_start(0x3001, &mut state, &mut answer);
    assert_eq!(answer, [3, 0, 0, 0]);
    assert_eq!(unequal_pairs(&state), 0x102);
    library::monitor_start(0x3000, &mut state, &mut answer);
    assert_eq!(answer, [0, 0, 1, 0]);
    assert_eq!(unequal_pairs(&state), 0);
}

/// A state that is too short or of another kind is answered by 255, and the word is 0.
#[test]
fn no_state() {
    let mut state = started(0x3000);
    step(0xc008, &mut state);
    for length in 0..MONITOR_STATE {
        assert_eq!(answer(&state[..length]), [NO_STATE, 0], "{length} bytes");
    }
    for kind in (0..=255).filter(|&kind| kind != state[0]) {
        let other = [&[kind], &state[1..]].concat();
        assert_eq!(answer(&other), [NO_STATE, 0], "kind {kind}");
    }
    let mut stream = vec![0; STREAM_STATE];
    library::stream_start(&mut stream, &mut [0; PUSH_ANSWER]);
    assert_eq!(answer(&stream), [NO_STATE, 0]);
    library::stream_push(&[0x30, 0x00, 0xc0, 0x08], &mut stream, &mut [0; PUSH_ANSWER]);
    assert_eq!(answer(&stream), [NO_STATE, 0]);
}

/// Bytes behind a monitor's state do not count.
#[test]
fn longer_states() {
    let mut state = started(0x3000);
    step(0xc008, &mut state);
    for more in [1, STREAM_STATE - MONITOR_STATE, 1_000] {
        for byte in [0, 255] {
            assert_eq!(unequal_pairs(&[state.as_slice(), &vec![byte; more]].concat()), 0x102);
        }
    }
}

/// Where the answer is too short, nothing is done; in a longer one the numbers behind stay.
#[test]
fn answers_of_any_length() {
    let mut running = started(0x3000);
    step(0xc008, &mut running);
    for (given, numbers) in [(running, [0, 0x102]), (vec![7; 5], [NO_STATE, 0])] {
        for length in 0..UNEQUAL_ANSWER + 3 {
            let (mut state, mut answer) = (Lent::holding(&given), Lent::new(length));
            library::monitor_unequal(state.lend(), answer.lend());
            state.assert_as_lent();
            answer.assert_begins(if length < UNEQUAL_ANSWER { &[] } else { &numbers });
        }
    }
}

/// Any bytes of the right kind are taken as some state, and never read outside. What is answered
/// follows from them alone.
#[test]
fn any_state() {
    for seed in 0..cases(20_000) {
        let random = &mut Random::new(seed);
        let mut given = started(random_header(random).pack());
        let count = *random.pick(&[1, 4, 40, MONITOR_STATE]);
        for _ in 0..count {
            given[1 + random.below(MONITOR_STATE - 1)] = random.bits() as u8;
        }
        assert_eq!(unequal_pairs(&given), unequal_pairs(&given.clone()), "seed {seed}");
    }
}
