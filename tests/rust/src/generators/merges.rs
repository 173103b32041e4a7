//! Traces whose equal tests make several classes one: results become equal in turn.

use super::random::Random;
use super::traces::random_letter;
use crate::oracle::letter::{Header, Letter};
use crate::oracle::monitor::is_coherent;
use crate::oracle::state::State;
use crate::oracle::trace::Trace;

/// Weights of the letters between those that lead to a merge.
const WEIGHTS: [[usize; 4]; 4] = [[2, 3, 1, 1], [1, 6, 2, 0], [4, 4, 4, 1], [1, 1, 0, 6]];

/// Arities of the functions: there is one at least.
const ARITIES: [&[u8]; 5] = [&[1], &[2], &[1, 2], &[1, 1], &[2, 1, 1, 2]];

/// A coherent trace with such tests, of about so many letters at most.
pub fn merging_trace(random: &mut Random, most: usize) -> Trace {
    let arities = *random.pick(&ARITIES);
    let header = Header::new(2 + random.byte_below(7), arities);
    let weights = *random.pick(&WEIGHTS);
    let length = random.below(most);
    let mut state = State::start(header);
    let mut letters = vec![];
    while letters.len() < length {
        let planned = match random.below(8) {
            0 => twins(random, &header),
            1 => chain(random, &header),
            _ => vec![random_letter(random, &header, weights)],
        };
        for letter in planned {
            let after = state.after(&letter);
            if is_coherent(&state, &letter, &after) {
                letters.push(letter);
                state = after;
            }
        }
    }
    Trace { header, letters }
}

/// Applications to two registers and to their results in turn, and a test of the two.
fn twins(random: &mut Random, header: &Header) -> Vec<Letter> {
    let pairs: Vec<[u8; 2]> = shuffled(random, header).as_chunks().0.to_vec();
    let mut letters: Vec<Letter> = pairs[0].iter().map(|&side| renewed(random, header, side)).collect();
    for place in 1..pairs.len() {
        let (first, second) = (pairs[random.below(place)], pairs[random.below(place)]);
        let function = random.byte_below(header.functions);
        let binary = header.arity(function) == 2;
        letters.extend([0, 1].map(|side| Letter::Apply {
            target: pairs[place][side],
            function,
            first: first[side],
            second: binary.then_some(second[side]),
        }));
    }
    letters.push(Letter::Equal { first: pairs[0][0], second: pairs[0][1] });
    letters
}

/// One function applied to a register and to its results in turn, and a test of the first two.
fn chain(random: &mut Random, header: &Header) -> Vec<Letter> {
    let order = shuffled(random, header);
    let function = random.byte_below(header.functions);
    let binary = header.arity(function) == 2;
    let mut letters = vec![renewed(random, header, order[0])];
    letters.extend(order.windows(2).map(|two| Letter::Apply {
        target: two[1],
        function,
        first: two[0],
        second: binary.then_some(two[0]),
    }));
    letters.push(Letter::Equal { first: order[1], second: order[0] });
    letters
}

/// Gives a register a value that mostly is new, and then has nothing above it.
fn renewed(random: &mut Random, header: &Header, register: u8) -> Letter {
    let function = random.byte_below(header.functions);
    let other = random.byte_below(header.registers);
    let second = (header.arity(function) == 2).then_some(other);
    Letter::Apply { target: register, function, first: register, second }
}

/// The registers in a random order, all of them or some.
fn shuffled(random: &mut Random, header: &Header) -> Vec<u8> {
    let mut order: Vec<u8> = (0..header.registers).collect();
    for place in (1..order.len()).rev() {
        order.swap(place, random.below(place + 1));
    }
    order.truncate(2 + random.below(order.len() - 1));
    order
}
