//! `fadzgime_monitor_classes`: the number of classes of a monitor's window. The tests of `calls` and
//! `unequal` ask for it after every letter too.

use fadzgime_tests::answers::CLASS_NUMBERS;
use fadzgime_tests::fast::monitor::FastMonitor;
use fadzgime_tests::generators::merges::merging_trace;
use fadzgime_tests::generators::random::{Random, cases};
use fadzgime_tests::generators::traces::{random_header, random_letter};
use fadzgime_tests::oracle::letter::{Header, Letter};
use fadzgime_tests::oracle::trace::Trace;
use fadzgime_tests::proved::library::{
    self, CLASSES_ANSWER, CLASSES_BYTE, MONITOR_STATE, NO_STATE, PUSH_ANSWER, STEP_ANSWER, STREAM_STATE,
};

use crate::calls::{check_words, with_any_words};
use crate::lent::Lent;
use crate::unequal::{asked, check_windows, started, step};

/// What the library answers for the bytes of a state.
fn answer(state: &[u8]) -> [u64; CLASSES_ANSWER] {
    asked(library::monitor_classes, state)
}

/// The number of a monitor's state.
pub fn class_count(state: &[u8]) -> usize {
    let [none, number] = answer(state);
    assert_eq!(none, 0, "it is a state");
    usize::try_from(number).expect("a small number")
}

/// Three registers in two classes.
fn two_classes() -> Vec<u8> {
    let mut state = started(0x3000);
    assert_eq!(step(0x8008, &mut state), [0, 0, 1, 0]);
    assert_eq!(class_count(&state), 2);
    state
}

/// Traces whose numbers were settled; a word that is refused changes nothing behind any letter.
#[test]
fn settled_numbers() {
    for settled in &CLASS_NUMBERS {
        let mut state = started(settled.words[0]);
        assert_eq!(class_count(&state), settled.classes[0], "{}", settled.text);
        for (&letter, &number) in settled.words[1..].iter().zip(&settled.classes[1..]) {
            assert_eq!(step(letter, &mut state)[0], 0);
            assert_eq!(class_count(&state), number, "{}", settled.text);
            assert_eq!(step(0xffff, &mut state)[0], 4);
            assert_eq!(class_count(&state), number, "{}", settled.text);
        }
    }
}

/// Many equal tests that merge, with words between that are refused.
#[test]
fn merging_traces() {
    for seed in 0..cases(20_000) {
        let random = &mut Random::new(seed);
        let trace = merging_trace(random, 60).pack();
        check_words(with_any_words(random, &trace));
    }
}

/// Copies that take one class after the other away, and applications that bring them back.
#[test]
fn down_and_up() {
    for registers in 1..=8 {
        let mut state = started(Header::new(registers, &[1]).pack());
        for target in 1..registers {
            step(Letter::Copy { target, source: 0 }.pack(), &mut state);
            assert_eq!(class_count(&state), usize::from(registers - target));
        }
        for target in 1..registers {
            step(Letter::Apply { target, function: 0, first: target - 1, second: None }.pack(), &mut state);
            assert_eq!(class_count(&state), usize::from(target + 1));
        }
    }
}

/// Long traces, by the fast monitor, which the oracle's tests hold to the definition.
#[test]
fn long_traces() {
    for seed in 0..cases(20) {
        let random = &mut Random::new(seed);
        let header = random_header(random);
        let weights = *random.pick(&[[4, 4, 1, 1], [2, 8, 3, 1]]);
        let (mut fast, mut state) = (FastMonitor::start(header), started(header.pack()));
        for _ in 0..20_000 {
            let letter = random_letter(random, &header, weights);
            let mut after = fast.clone();
            if after.perform(&letter) {
                fast = after;
                let infeasible = u64::from(fast.is_infeasible());
                assert_eq!(step(letter.pack(), &mut state), [0, 0, 1, infeasible], "seed {seed}");
                assert_eq!(class_count(&state), fast.counted_classes(), "seed {seed}");
            }
        }
    }
}

/// Both have the same number.
fn same_number(state: &[u8], fast: &FastMonitor) -> bool {
    class_count(state) == fast.counted_classes()
}

#[test]
fn every_window() {
    check_windows(Header::new(2, &[1]), usize::MAX, same_number);
    check_windows(Header::new(2, &[2]), usize::MAX, same_number);
    check_windows(Header::new(3, &[]), usize::MAX, same_number);
    check_windows(Header::new(3, &[1]), usize::MAX, same_number);
    check_windows(Header::new(3, &[2]), 1_000, same_number);
    check_windows(Header::new(4, &[]), usize::MAX, same_number);
    check_windows(Header::new(4, &[1]), 1_000, same_number);
}

/// A start has the number of registers, under every header; one that is refused leaves a monitor with
/// its number.
#[test]
fn starts() {
    let (mut state, mut answer) = (two_classes(), [u64::MAX; STEP_ANSWER]);
    for word in 0..=u16::MAX {
        let mut next = state.clone();
        library::monitor_start(word, &mut next, &mut answer);
        let number = if answer[0] == 0 { usize::from(word >> 12) } else { 2 };
        assert_eq!(answer[0], if Header::unpack(word).is_some() { 0 } else { 3 });
        assert_eq!(class_count(&next), number, "{word:04x}");
    }
    library::monitor_start(0x7001, &mut state, &mut answer);
    assert_eq!(answer, [3, 0, 0, 0]);
    assert_eq!(step(0x0400, &mut state), [0, 0, 1, 0]);
    assert_eq!(class_count(&state), 1, "the monitor goes on");
}

/// Steps that are refused, by the header or because no letter is, leave the number, also once the
/// monitor has stopped.
#[test]
fn refused_steps() {
    let mut state = started(0x3200);
    let stop = [0x4400, 0x0400, 0x8008];
    for word in [0x0200].into_iter().chain(stop) {
        step(word, &mut state);
        let number = class_count(&state);
        for refused in [0xffff, 0x0001, 0x0600, 0x5400, 0x4448, 0x8018, 0xc0c0] {
            assert_eq!(step(refused, &mut state)[0], 4, "{refused:04x}");
            assert_eq!(class_count(&state), number, "{refused:04x}");
        }
    }
}

/// A state that is too short or of another kind is answered by 255, and the number is 0.
#[test]
fn no_state() {
    let state = two_classes();
    for length in 0..MONITOR_STATE {
        assert_eq!(answer(&state[..length]), [NO_STATE, 0], "{length} bytes");
    }
    for kind in (0..=255).filter(|&kind| kind != state[0]) {
        let other = [&[kind], &state[1..]].concat();
        assert_eq!(answer(&other), [NO_STATE, 0], "kind {kind}");
    }
    let mut stream = vec![0; STREAM_STATE];
    library::stream_start(&mut stream, &mut [0; PUSH_ANSWER]);
    assert_eq!(answer(&stream), [NO_STATE, 0]);
    library::stream_push(&[0x30, 0x00, 0x80, 0x08], &mut stream, &mut [0; PUSH_ANSWER]);
    assert_eq!(answer(&stream), [NO_STATE, 0]);
}

/// A packed trace of coherent letters, and its number of classes. Some are longer than the
/// 512 letters from which on a run keeps classes in slots.
fn long_or_short(random: &mut Random) -> (Vec<u8>, usize) {
    let header = random_header(random);
    let length = *random.pick(&[20, 600, 700]);
    let (mut fast, mut letters) = (FastMonitor::start(header), vec![]);
    while letters.len() < length {
        let letter = random_letter(random, &header, [2, 6, 2, 1]);
        if fast.judge(&letter) {
            fast.perform(&letter);
            letters.push(letter);
        }
    }
    (Trace { header, letters }.pack(), fast.counted_classes())
}

/// The number stands in the state of a stream too, whether the letters come at once or in parts.
#[test]
fn streams() {
    for seed in 0..cases(2_000) {
        let random = &mut Random::new(seed);
        let (trace, number) = long_or_short(random);
        for part in [trace.len(), 1 + random.below(100)] {
            let (mut stream, mut answer) = (vec![0; STREAM_STATE], [u64::MAX; PUSH_ANSWER]);
            library::stream_start(&mut stream, &mut answer);
            trace.chunks(part).for_each(|part| library::stream_push(part, &mut stream, &mut answer));
            assert_eq!(usize::from(stream[CLASSES_BYTE]), number, "seed {seed}");
        }
    }
}

/// Bytes behind a monitor's state do not count.
#[test]
fn longer_states() {
    let state = two_classes();
    for more in [1, STREAM_STATE - MONITOR_STATE, 1_000] {
        for byte in [0, 255] {
            assert_eq!(class_count(&[state.as_slice(), &vec![byte; more]].concat()), 2);
        }
    }
}

/// Where the answer is too short, nothing is done; in a longer one the numbers behind stay.
#[test]
fn answers_of_any_length() {
    for (given, numbers) in [(two_classes(), [0, 2]), (vec![7; 5], [NO_STATE, 0])] {
        for length in 0..CLASSES_ANSWER + 3 {
            let (mut state, mut answer) = (Lent::holding(&given), Lent::new(length));
            library::monitor_classes(state.lend(), answer.lend());
            state.assert_as_lent();
            answer.assert_begins(if length < CLASSES_ANSWER { &[] } else { &numbers });
        }
    }
}

/// A monitor after some letters, with some bytes changed.
fn damaged(random: &mut Random) -> Vec<u8> {
    let header = random_header(random);
    let mut state = started(header.pack());
    for _ in 0..random.below(10) {
        step(random_letter(random, &header, [4, 4, 1, 1]).pack(), &mut state);
    }
    let count = *random.pick(&[1, 4, 40, MONITOR_STATE]);
    for _ in 0..count {
        state[1 + random.below(MONITOR_STATE - 1)] = random.bits() as u8;
    }
    if random.once_in(2) {
        state[CLASSES_BYTE] = *random.pick(&[0, 1, 7, 8, 9, 255]);
    }
    state
}

/// Bytes of the right kind are taken as some state: the answer is the byte that is stored, whatever the
/// others are.
#[test]
fn any_state() {
    for seed in 0..cases(20_000) {
        let state = damaged(&mut Random::new(seed));
        assert_eq!(class_count(&state), usize::from(state[CLASSES_BYTE]), "seed {seed}");
    }
    for number in 0..=255 {
        for mut state in [started(0x3000), two_classes(), vec![0; MONITOR_STATE], vec![255; MONITOR_STATE]] {
            (state[0], state[CLASSES_BYTE]) = (two_classes()[0], number);
            assert_eq!(class_count(&state), usize::from(number));
        }
    }
}

/// Letters taken from such a state touch nothing else, and the number that is answered is the one that
/// is stored.
#[test]
fn steps_from_any_state() {
    for seed in 0..cases(20_000) {
        let random = &mut Random::new(seed);
        let mut state = damaged(random);
        if random.once_in(2) {
            let header = random_header(random);
            let mask = (0..4).map(|f| u8::from(header.binary[f]) << f).sum();
            state[1..5].copy_from_slice(&[header.registers, header.functions, mask, 1]);
        }
        let mut lent = Lent::holding(&state);
        for _ in 0..30 {
            let mut answer = Lent::new(STEP_ANSWER);
            let word = random.bits() as u16 & *random.pick(&[0xffff, 0xfff8, 0xcff8]);
            library::monitor_step(word, lent.lend(), answer.lend());
            answer.look();
            assert_eq!(class_count(lent.look()), usize::from(lent.look()[CLASSES_BYTE]), "seed {seed}");
        }
    }
}
