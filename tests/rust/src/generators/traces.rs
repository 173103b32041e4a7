//! Random traces: coherent for long, infeasible, incoherent, and damaged.

use std::collections::VecDeque;

use super::random::Random;
use super::repeats::{Repeat, random_repeat};
use crate::oracle::letter::{Header, Letter, MAX_FUNCTIONS, MAX_REGISTERS};
use crate::oracle::monitor::is_coherent;
use crate::oracle::state::State;
use crate::oracle::trace::Trace;

/// How letters are chosen.
#[derive(Clone, Copy, Debug)]
pub struct Profile {
    /// Weights of copies, applications, equal tests and unequal tests.
    pub weights: [usize; 4],
    /// An incoherent letter is kept once in so many times.
    pub incoherent: usize,
    /// A letter that makes the trace infeasible is kept once in so many times.
    pub infeasible: usize,
    /// Letters that lead to a test of what is already equal are begun once in so many times.
    pub repeats: usize,
}

const WEIGHTS: [[usize; 4]; 5] = [[1, 1, 1, 1], [6, 2, 2, 1], [1, 6, 2, 1], [1, 2, 6, 1], [1, 3, 3, 3]];

impl Profile {
    /// A random profile.
    pub fn random(random: &mut Random) -> Profile {
        Profile {
            weights: *random.pick(&WEIGHTS),
            incoherent: *random.pick(&[1, 4, 30, 1000]),
            infeasible: *random.pick(&[1, 10, 100, 1000]),
            repeats: *random.pick(&[6, 15, 1000]),
        }
    }
}

/// Weights with many unequal tests.
const UNEQUAL_WEIGHTS: [[usize; 4]; 4] = [[4, 4, 1, 12], [1, 2, 1, 9], [6, 2, 1, 4], [2, 6, 3, 3]];

/// A random header, all of them possible.
pub fn random_header(random: &mut Random) -> Header {
    let registers = 1 + random.byte_below(MAX_REGISTERS);
    let functions = random.byte_below(MAX_FUNCTIONS + 1);
    let arities: Vec<u8> = (0..functions).map(|_| 1 + random.byte_below(2)).collect();
    Header::new(registers, &arities)
}

/// A random letter under a header; an application only if there is a function.
pub fn random_letter(random: &mut Random, header: &Header, weights: [usize; 4]) -> Letter {
    let mut register = || random.byte_below(header.registers);
    let (target, first, second) = (register(), register(), register());
    let [copy, application, equal, unequal] = weights;
    let application = if header.functions == 0 { 0 } else { application };
    match random.weighted(&[copy, application, equal, unequal]) {
        0 => Letter::Copy { target, source: first },
        1 => {
            let function = random.byte_below(header.functions);
            let second = (header.arity(function) == 2).then_some(second);
            Letter::Apply { target, function, first, second }
        }
        2 => Letter::Equal { first, second },
        _ => Letter::Unequal { first, second },
    }
}

/// A random trace of so many letters. Letters that would make it incoherent or
/// infeasible are drawn again but for the times that the profile says.
pub fn random_trace(random: &mut Random, header: Header, profile: Profile, length: usize) -> Trace {
    let mut state = State::start(header);
    let mut coherent = true;
    let mut letters = Vec::with_capacity(length);
    let mut planned = VecDeque::new();
    for _ in 0..length {
        if planned.is_empty() && random.once_in(profile.repeats) {
            planned.extend(repeat_letters(random, &header));
        }
        if !coherent {
            let next = planned.pop_front();
            letters.push(next.unwrap_or_else(|| random_letter(random, &header, profile.weights)));
            continue;
        }
        let (letter, stays, after) = choose(random, &state, profile, &mut planned);
        letters.push(letter);
        (state, coherent) = (after, stays);
    }
    Trace { header, letters }
}

/// Letters that lead to a test of what is already equal, the test and what follows it.
fn repeat_letters(random: &mut Random, header: &Header) -> Vec<Letter> {
    let Repeat { mut before, sides: [first, second], behind } = random_repeat(random, header);
    before.push(Letter::Equal { first, second });
    before.extend(behind);
    before
}

/// A letter for this state, a planned one if there is one, whether it is coherent, and the state after it.
fn choose(
    random: &mut Random,
    state: &State,
    profile: Profile,
    planned: &mut VecDeque<Letter>,
) -> (Letter, bool, State) {
    for _ in 0..6 {
        let next = planned.pop_front();
        let letter = next.unwrap_or_else(|| random_letter(random, &state.header, profile.weights));
        let after = state.after(&letter);
        let coherent = is_coherent(state, &letter, &after);
        let feasible = after.is_feasible() || !state.is_feasible();
        let kept = (coherent || random.once_in(profile.incoherent))
            && (feasible || random.once_in(profile.infeasible));
        if kept {
            return (letter, coherent, after);
        }
    }
    let letter = Letter::Copy { target: 0, source: 0 };
    (letter, true, state.after(&letter))
}

/// A random trace with everything random, of fewer than `most` letters.
pub fn any_trace(random: &mut Random, most: usize) -> Trace {
    let header = random_header(random);
    let profile = Profile::random(random);
    let length = random.below(most);
    random_trace(random, header, profile, length)
}

/// A random trace with many unequal tests and few letters that are incoherent or make it
/// infeasible, of fewer than `most` letters.
pub fn unequal_trace(random: &mut Random, most: usize) -> Trace {
    let header = random_header(random);
    let profile = Profile {
        weights: *random.pick(&UNEQUAL_WEIGHTS),
        incoherent: *random.pick(&[10, 100, 1000]),
        infeasible: *random.pick(&[10, 100, 1000]),
        repeats: *random.pick(&[8, 15, 1000]),
    };
    let length = random.below(most);
    random_trace(random, header, profile, length)
}

/// Packed bytes that differ from those of a trace in a way that is mostly refused.
pub fn damage_trace(random: &mut Random, trace: &Trace) -> Vec<u8> {
    let mut bytes = trace.pack();
    let words = bytes.len() / 2;
    match random.below(8) {
        0 => bytes.truncate(random.below(3)),
        1 => bytes.truncate(random.below(bytes.len() + 1)),
        2 => bytes.push(random.bits() as u8),
        3 => flip(random, &mut bytes, 0),
        4 => {
            let word = (random.bits() as u16).to_be_bytes();
            bytes[..2].copy_from_slice(&word);
        }
        5 => {
            let word = random.below(words);
            let value = (random.bits() as u16).to_be_bytes();
            bytes[2 * word..2 * word + 2].copy_from_slice(&value);
        }
        _ => {
            let word = random.below(words);
            flip(random, &mut bytes, word);
        }
    }
    bytes
}

/// Flips one bit of one word.
fn flip(random: &mut Random, bytes: &mut [u8], word: usize) {
    bytes[2 * word + random.below(2)] ^= 1 << random.below(8);
}
