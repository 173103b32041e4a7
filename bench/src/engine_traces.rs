//! Traces for the whole-trace engine.

use fadzgime_tests::generators::random::Random;
use fadzgime_tests::generators::traces::random_letter;
use fadzgime_tests::oracle::letter::{Header, Letter};
use fadzgime_tests::oracle::trace::Trace;

/// Random letters, coherent or not, mostly applications.
pub fn typical(length: usize) -> Trace {
    let random = &mut Random::new(2);
    let header = Header::new(8, &[1, 2, 1, 2]);
    let letters = (0..length).map(|_| random_letter(random, &header, [2, 6, 1, 0])).collect();
    Trace { header, letters }
}

/// Two chains of one function, whose ends are made equal by the last letter: all
/// merges come at once.
pub fn two_chains(length: usize) -> Trace {
    let header = Header::new(4, &[1]);
    let step = |target: u8, first: u8| Letter::Apply { target, function: 0, first, second: None };
    let half = (length - 1) / 2;
    let mut letters = vec![step(2, 0)];
    letters.resize(half, step(2, 2));
    letters.push(step(3, 1));
    letters.resize(length - 1, step(3, 3));
    letters.push(Letter::Equal { first: 0, second: 1 });
    Trace { header, letters }
}

/// One chain with its beginning equal to two later terms: the classes fall together
/// as by Euclid's algorithm.
pub fn euclid(length: usize) -> Trace {
    let header = Header::new(4, &[1]);
    let step = |target: u8, first: u8| Letter::Apply { target, function: 0, first, second: None };
    let chain = length - 3;
    let mut letters = vec![step(1, 0)];
    letters.resize(chain / 2 + 1, step(1, 1));
    letters.push(Letter::Copy { target: 2, source: 1 });
    letters.resize(length - 2, step(1, 1));
    letters.push(Letter::Equal { first: 0, second: 1 });
    letters.push(Letter::Equal { first: 0, second: 2 });
    Trace { header, letters }
}

/// Binary applications in a tree over all registers, then equal tests of the leaves.
pub fn leaves(length: usize) -> Trace {
    let header = Header::new(8, &[2, 2, 2, 2]);
    let random = &mut Random::new(3);
    let tests = 3;
    let mut letters: Vec<Letter> = (0..length - tests)
        .map(|_| Letter::Apply {
            target: 4 + random.byte_below(4),
            function: random.byte_below(4),
            first: random.byte_below(8),
            second: Some(random.byte_below(8)),
        })
        .collect();
    letters.extend((1..4).map(|second| Letter::Equal { first: 0, second }));
    Trace { header, letters }
}

/// Two chains whose ends are tested unequal before their beginnings are made equal by
/// the last letter, which is the first infeasible one.
pub fn parted(length: usize) -> Trace {
    let mut trace = two_chains(length - 1);
    let last = trace.letters.len() - 1;
    trace.letters.insert(last, Letter::Unequal { first: 2, second: 3 });
    trace
}

/// A chain, each of whose terms is made equal to a term of a second chain as soon as
/// both are computed: a merge at every third letter.
pub fn merges(length: usize) -> Trace {
    let header = Header::new(4, &[1, 1]);
    let round = [
        Letter::Apply { target: 0, function: 0, first: 0, second: None },
        Letter::Apply { target: 1, function: 1, first: 1, second: None },
        Letter::Equal { first: 0, second: 1 },
    ];
    let letters = round.into_iter().cycle().take(length).collect();
    Trace { header, letters }
}

/// Levels of terms a, b, f(a), f(b), where f(a) and f(b) are made equal to the a and b
/// of the level before. At the end the last a and b are made equal: then one level
/// follows from the other, from the latest terms back to the first.
pub fn levels(length: usize) -> Trace {
    let header = Header::new(8, &[1, 2]);
    let apply = |target: u8, first: u8| Letter::Apply { target, function: 0, first, second: None };
    let pair = |target: u8, first: u8, second: u8| Letter::Apply {
        target,
        function: 1,
        first,
        second: Some(second),
    };
    let mut letters = vec![];
    let (mut old, mut new) = (3, 5);
    while letters.len() + 8 <= length {
        letters.extend([
            apply(2, 2),
            pair(new, 0, 2),
            pair(new + 1, 1, 2),
            apply(7, new),
            Letter::Equal { first: 7, second: old },
            apply(7, new + 1),
            Letter::Equal { first: 7, second: old + 1 },
        ]);
        (old, new) = (new, old);
    }
    letters.resize(length - 1, Letter::Copy { target: 7, source: 7 });
    letters.push(Letter::Equal { first: old, second: old + 1 });
    Trace { header, letters }
}
