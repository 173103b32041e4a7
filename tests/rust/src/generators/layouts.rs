//! Random macros to be laid out: their elses are of each kind, and some of their prints have about 4,096 bytes.

use super::macros::{DEEPEST, dense_text, macro_text, random_macro};
use super::random::Random;
use crate::oracle::layout::{MAX_PRINT, print_macro};
use crate::oracle::syntax::{Condition, Macro, Statement};

/// Bytes of the line `skip;`.
const SKIP_LINE: usize = 6;

/// Tests that a macro gets so that its print may have any number of bytes.
const TESTS: usize = SKIP_LINE - 1;

/// The longest print of a macro that is filled up with further lines.
const UNFILLED: usize = 3_000;

/// A random macro and its text in a random layout and spelling. One in eight has a print of about as many bytes as
/// there may be.
pub fn text_to_lay_out(random: &mut Random) -> (Macro, Vec<u8>) {
    let long = random.once_in(8);
    let read = if long { long_print(random) } else { varied_macro(random) };
    let mut text = if long { dense_text(random, &read) } else { macro_text(random, &read) };
    if random.once_in(8) {
        // No LF ends this comment.
        text.extend(b"#else{}");
    }
    (read, text)
}

/// A random macro whose elses are absent or empty, or hold `skip;`, an `if` or any other statements.
fn varied_macro(random: &mut Random) -> Macro {
    let points = *random.pick(&[4, 12, 40]);
    let mut read = random_macro(random, points);
    fill_elses(random, &mut read.statements, 0);
    read
}

/// Puts `skip;`, or an `if` with empty blocks, into some of the empty elses of statements inside this many braces.
fn fill_elses(random: &mut Random, statements: &mut [Statement], depth: usize) {
    for statement in statements {
        match statement {
            Statement::If(condition, yes, no) => {
                match random.below(4) {
                    0 if no.is_empty() => no.push(Statement::Skip),
                    1 if no.is_empty() && depth + 2 <= DEEPEST => {
                        no.push(Statement::If(condition.opposite(), vec![], vec![]));
                    }
                    _ => {}
                }
                fill_elses(random, yes, depth + 1);
                fill_elses(random, no, depth + 1);
            }
            Statement::While(_, body) => fill_elses(random, body, depth + 1),
            _ => {}
        }
    }
}

/// A macro whose print has about as many bytes as there may be, or up to some hundreds fewer.
fn long_print(random: &mut Random) -> Macro {
    let length = match random.once_in(4) {
        true => UNFILLED + 500 + random.below(600),
        false => MAX_PRINT - 8 + random.below(16),
    };
    macro_of_print(random, length)
}

/// A macro whose print has so many bytes, some thousands.
pub fn macro_of_print(random: &mut Random, length: usize) -> Macro {
    let points = *random.pick(&[4, 40, 120]);
    let mut read = random_macro(random, points);
    while print_macro(&read).len() > UNFILLED {
        read.statements.pop();
    }
    let test = |equal: bool| Statement::Assume(Condition::compare(equal, 0, 0));
    let equal_tests = Macro { statements: vec![test(true); TESTS], ..read.clone() };
    let declarations = Macro { statements: vec![], ..read.clone() };
    let tests = print_macro(&equal_tests).len() - print_macro(&declarations).len();
    let left = length - print_macro(&read).len() - tests;
    // `!=` is a byte longer than `=`, so that what is left then is a number of lines.
    read.statements.extend((0..TESTS).map(|number| test(number >= left % SKIP_LINE)));
    let place = random.below(read.statements.len() + 1);
    read.statements.splice(place..place, vec![Statement::Skip; left / SKIP_LINE]);
    read
}
