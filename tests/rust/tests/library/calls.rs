//! The monitor a letter a call, and the run over a trace in parts.

use fadzgime_tests::answers::EQUAL_SIDES_TRACES;
use fadzgime_tests::generators::random::{Random, cases};
use fadzgime_tests::generators::traces::{any_trace, damage_trace, random_header, random_letter};
use fadzgime_tests::oracle::classes::class_number;
use fadzgime_tests::oracle::letter::{Header, Letter};
use fadzgime_tests::oracle::monitor::is_coherent;
use fadzgime_tests::oracle::state::State;
use fadzgime_tests::oracle::trace::Trace;
use fadzgime_tests::oracle::unequal_word::unequal_word;
use fadzgime_tests::proved::library::{
    self, CLASSES_BYTE, MONITOR_ANSWER, MONITOR_STATE, NO_STATE, PUSH_ANSWER, STEP_ANSWER, STREAM_STATE,
};

use crate::classes::class_count;
use crate::lent::Lent;
use crate::unequal::unequal_pairs;

/// The monitor by the definitions: the state of the longest coherent beginning.
struct Expected {
    state: State,
    running: bool,
}

impl Expected {
    /// Takes a letter's word, and gives what the call has to answer.
    fn step(&mut self, word: u16) -> [u64; STEP_ANSWER] {
        let letter = Letter::unpack(word, &self.state.header);
        if let Some(letter) = letter {
            let after = self.state.after(&letter);
            self.running &= is_coherent(&self.state, &letter, &after);
            if self.running {
                self.state = after;
            }
        }
        let infeasible = !self.state.is_feasible();
        [if letter.is_none() { 4 } else { 0 }, 0, u64::from(self.running), u64::from(infeasible)]
    }
}

/// Calls the monitor word by word; each answer, the unequal pairs and the number of classes after it,
/// and the state where it has to stay.
pub fn check_words(words: impl IntoIterator<Item = u16>) {
    let mut words = words.into_iter();
    let header = words.next().expect("a header's word");
    let mut state = Lent::new(MONITOR_STATE + 3);
    let mut answer = Lent::new(STEP_ANSWER + 2);
    library::monitor_start(header, state.lend(), answer.lend());
    let Some(header) = Header::unpack(header) else {
        answer.assert_begins(&[3, 0, 0, 0]);
        state.assert_as_lent();
        return;
    };
    answer.assert_begins(&[0, 0, 1, 0]);
    let mut expected = Expected { state: State::start(header), running: true };
    assert_eq!(unequal_pairs(state.look()), 0, "no letter yet");
    assert_eq!(class_count(state.look()), usize::from(header.registers), "no letter yet");
    for word in words {
        let before = state.look().to_vec();
        let mut answer = Lent::new(STEP_ANSWER + 2);
        library::monitor_step(word, state.lend(), answer.lend());
        let found = expected.step(word);
        answer.assert_begins(&found);
        assert_eq!(unequal_pairs(state.look()), unequal_word(&expected.state), "{word:04x}");
        assert_eq!(class_count(state.look()), class_number(&expected.state), "{word:04x}");
        assert_eq!(state.look()[MONITOR_STATE..], before[MONITOR_STATE..], "behind the state");
        if found[0] == 4 {
            assert_eq!(state.look(), before, "a refusal changes nothing");
        }
    }
}

/// The words of which bytes are made, the header's first.
pub fn words(bytes: &[u8]) -> impl Iterator<Item = u16> + '_ {
    bytes.chunks_exact(2).map(|pair| u16::from_be_bytes([pair[0], pair[1]]))
}

#[test]
fn a_letter_a_call() {
    for seed in 0..cases(20_000) {
        check_words(words(&any_trace(&mut Random::new(seed), 40).pack()));
    }
}

/// Traces that test what is already equal; a word that is refused changes nothing between any two letters.
#[test]
fn equal_sides() {
    for judged in &EQUAL_SIDES_TRACES {
        check_words(judged.words.iter().copied());
        check_words(judged.words.iter().flat_map(|&word| [word, 0xffff]));
        check_parts(&mut Random::new(1), &judged.bytes(), 4);
    }
}

/// The words of a trace with a few of any bits between them, most of which are refused.
pub fn with_any_words(random: &mut Random, trace: &[u8]) -> Vec<u16> {
    let mut all: Vec<u16> = words(trace).collect();
    for _ in 0..random.below(6) {
        all.insert(1 + random.below(all.len()), random.bits() as u16);
    }
    all
}

/// Words that are refused in between: the monitor goes on behind them.
#[test]
fn refused_letters_between() {
    for seed in 0..cases(10_000) {
        let random = &mut Random::new(seed);
        let trace = any_trace(random, 30).pack();
        check_words(with_any_words(random, &trace));
    }
}

#[test]
fn every_header_word() {
    for word in 0..=u16::MAX {
        check_words([word, 0x0000, 0x8000, 0xc000]);
    }
}

/// What `fadzgime_monitor` answers.
fn whole(bytes: &[u8]) -> [u64; MONITOR_ANSWER] {
    let mut answer = [0; MONITOR_ANSWER];
    library::monitor(bytes, &mut answer);
    answer
}

/// Lends the bytes in parts of random lengths, empty and odd ones too; after each part
/// the answer is that for all bytes so far.
fn check_parts(random: &mut Random, bytes: &[u8], most: usize) {
    let mut state = Lent::new(STREAM_STATE + 3);
    let mut answer = Lent::new(PUSH_ANSWER + 2);
    library::stream_start(state.lend(), answer.lend());
    answer.assert_begins(&[0]);
    let mut at = 0;
    while at < bytes.len() {
        let end = bytes.len().min(at + random.below(most));
        let mut part = Lent::holding(&bytes[at..end]);
        let behind = state.look()[STREAM_STATE..].to_vec();
        library::stream_push(part.lend(), state.lend(), answer.lend());
        part.assert_as_lent();
        answer.assert_begins(&[0]);
        assert_eq!(state.look()[STREAM_STATE..], behind, "behind the state");
        at = end;
        if random.once_in(3) || at == bytes.len() {
            let mut finished = Lent::new(MONITOR_ANSWER + 2);
            library::stream_finish(state.look(), finished.lend());
            finished.assert_begins(&whole(&bytes[..at]));
        }
    }
}

#[test]
fn parts_of_traces() {
    for seed in 0..cases(20_000) {
        let random = &mut Random::new(seed);
        let bytes = any_trace(random, 40).pack();
        let most = 2 + random.below(9);
        check_parts(random, &bytes, most);
    }
}

#[test]
fn parts_of_damaged_traces() {
    for seed in 0..cases(20_000) {
        let random = &mut Random::new(seed);
        let trace = any_trace(random, 12);
        let bytes = damage_trace(random, &trace);
        check_parts(random, &bytes, 5);
    }
}

/// A state that is too short or of another kind is answered by 255 and stays.
#[test]
fn no_state() {
    let none = [NO_STATE, 0, 0, 0];
    for length in [0, 1, MONITOR_STATE - 1, MONITOR_STATE, STREAM_STATE - 1, STREAM_STATE] {
        for kind in [0, 1, 2, 3, 255] {
            let mut given = vec![7; length];
            if let Some(first) = given.first_mut() {
                *first = kind;
            }
            let mut state = Lent::holding(&given);
            let mut answer = Lent::new(STEP_ANSWER);
            if length < MONITOR_STATE {
                library::monitor_start(0x3200, state.lend(), answer.lend());
                answer.assert_begins(&none);
                state.assert_as_lent();
            }
            if length < MONITOR_STATE || kind != 1 {
                library::monitor_step(0x4400, state.lend(), answer.lend());
                answer.assert_begins(&none);
                state.assert_as_lent();
            }
            if length < STREAM_STATE {
                let mut answer = Lent::new(PUSH_ANSWER);
                library::stream_start(state.lend(), answer.lend());
                answer.assert_begins(&[NO_STATE]);
                state.assert_as_lent();
            }
            if length < STREAM_STATE || kind != 2 {
                let mut pushed = Lent::new(PUSH_ANSWER);
                library::stream_push(&[0x32], state.lend(), pushed.lend());
                pushed.assert_begins(&[NO_STATE]);
                state.assert_as_lent();
                library::stream_finish(state.look(), answer.lend());
                answer.assert_begins(&none);
            }
        }
    }
}

/// Any bytes of the right kind are taken as some state, and never read outside.
#[test]
fn any_state() {
    for seed in 0..cases(20_000) {
        let random = &mut Random::new(seed);
        let mut given: Vec<u8> = (0..STREAM_STATE).map(|_| random.bits() as u8).collect();
        given[0] = 1 + random.byte_below(2);
        if random.once_in(2) {
            given[1..4].copy_from_slice(&[1 + random.byte_below(8), 2, random.byte_below(4)]);
        }
        let mut state = Lent::holding(&given);
        let mut answer = Lent::new(STEP_ANSWER);
        library::monitor_step(random.bits() as u16, state.lend(), answer.lend());
        library::stream_push(&[1, 2, 3], state.lend(), answer.lend());
        library::stream_finish(state.look(), answer.lend());
        answer.look();
    }
}

/// Bytes pushed at once lead to the state to which the same bytes lead in small parts, from any state: also from one whose
/// classes are none, so that no slots stand for its window. The number of classes is free where the state is that of no trace.
#[test]
fn any_state_at_once_and_in_parts() {
    for seed in 0..cases(2_000) {
        let random = &mut Random::new(seed);
        let trace = with_many_letters(random);
        let mut state = vec![0; STREAM_STATE];
        let mut answer = [0; PUSH_ANSWER];
        library::stream_start(&mut state, &mut answer);
        library::stream_push(&trace[..2 + 2 * random.below(20)], &mut state, &mut answer);
        let damages = random.below(4);
        for _ in 0..damages {
            let at = 4 + random.below(STREAM_STATE - 4);
            state[at] = random.bits() as u8;
        }
        let mut parts = state.clone();
        library::stream_push(&trace[2..], &mut state, &mut answer);
        for part in trace[2..].chunks(1 + random.below(100)) {
            library::stream_push(part, &mut parts, &mut answer);
        }
        if damages > 0 {
            (state[CLASSES_BYTE], parts[CLASSES_BYTE]) = (0, 0);
        }
        assert_eq!(state, parts, "seed {seed}");
    }
}

/// A trace of some six hundred letters, as bytes.
fn with_many_letters(random: &mut Random) -> Vec<u8> {
    let header = random_header(random);
    let letters = (0..600).map(|_| random_letter(random, &header, [4, 4, 1, 1])).collect();
    Trace { header, letters }.pack()
}

/// An answer that is too short: nothing is done.
#[test]
fn short_answers() {
    let mut state = Lent::new(STREAM_STATE);
    for length in 0..STEP_ANSWER {
        let mut answer = Lent::new(length);
        library::monitor_start(0x3200, state.lend(), answer.lend());
        library::monitor_step(0x4400, state.lend(), answer.lend());
        library::stream_finish(state.look(), answer.lend());
        answer.assert_as_lent();
        state.assert_as_lent();
    }
    let mut answer = Lent::new(0);
    library::stream_start(state.lend(), answer.lend());
    library::stream_push(&[0x32], state.lend(), answer.lend());
    answer.assert_as_lent();
    state.assert_as_lent();
}
