//! The points of a macro in the order of the text, as the program `reader_runs` prints them.

use super::letter::Letter;
use super::reader::read_macro;
use super::syntax::{Condition, Macro, Statement, count_points};

/// The points are printed if there are no more.
const FEW_POINTS: usize = 12;

/// An assignment, an assume, or the application of a test with a name.
const STEP: u8 = 0;
/// An assert.
const ASSERT: u8 = 1;
/// An if or a while.
const BRANCH: u8 = 2;

/// What the reading of a macro finds: a refusal, or the counts, the mask of the two-argument functions, and the points.
pub fn print_points(text: &[u8]) -> String {
    match read_macro(text) {
        Err(refusal) => format!("{refusal}\n"),
        Ok(read) => format!("read {}\n", listing(&read)),
    }
}

fn listing(read: &Macro) -> String {
    let binary = read.all_functions().enumerate().map(|(place, (_, binary))| u8::from(*binary) << place);
    let (registers, functions) = (read.all_registers().count(), read.all_functions().count());
    let mut out = format!("{registers} {functions} {} {}", binary.sum::<u8>(), read.points());
    if read.points() <= FEW_POINTS {
        let mut points = Vec::new();
        list(&mut points, &read.statements, read.points());
        out.extend(points);
    }
    out
}

/// Lists the points of some statements that are followed by a target. A point has two targets; the second one is 0
/// unless it is a branch.
fn list(points: &mut Vec<String>, statements: &[Statement], behind: usize) {
    for (place, statement) in statements.iter().enumerate() {
        let here = points.len();
        let after = here + count_points(&statements[place..=place]);
        let next = first_of(&statements[place + 1..], after, behind);
        points.extend(statement.applied().map(|letter| entry(STEP, &letter, here + 1, 0)));
        let inside = points.len() + 1;
        match statement {
            Statement::Skip => {}
            Statement::Assign(letter) => points.push(entry(STEP, letter, next, 0)),
            Statement::Assume(condition) => points.push(entry(STEP, &condition.letter(), next, 0)),
            Statement::Assert(condition) => points.push(entry(ASSERT, &condition.letter(), next, 0)),
            Statement::If(condition, yes, no) => {
                let second = inside + count_points(yes);
                points.push(branch(condition, first_of(yes, inside, next), first_of(no, second, next)));
                list(points, yes, next);
                list(points, no, next);
            }
            Statement::While(condition, body) => {
                points.push(branch(condition, first_of(body, inside, here), next));
                list(points, body, here);
            }
        }
    }
}

/// The first point of some statements, listed from a place on; the target behind them if they have none.
fn first_of(statements: &[Statement], place: usize, behind: usize) -> usize {
    if count_points(statements) > 0 { place } else { behind }
}

fn branch(condition: &Condition, yes: usize, no: usize) -> String {
    entry(BRANCH, &condition.letter(), yes, no)
}

/// One point; a function of one argument stands with its argument twice.
fn entry(kind: u8, letter: &Letter, first: usize, second: usize) -> String {
    let letter = match *letter {
        Letter::Copy { target, source } => format!("copy {target} {source}"),
        Letter::Apply { target, function, first, second } => {
            format!("apply {target} {function} {first} {}", second.unwrap_or(first))
        }
        Letter::Equal { first, second } => format!("equal {first} {second}"),
        Letter::Unequal { first, second } => format!("unequal {first} {second}"),
    };
    format!(" | {kind} {letter} {first} {second}")
}
