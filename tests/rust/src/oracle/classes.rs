//! The number of classes of registers after a beginning of a trace (document 02, "How many classes
//! are alive"): by its definition from the terms and the closure of the whole beginning, and kept
//! from letter to letter by what the window before each letter says.

use std::collections::{BTreeMap, BTreeSet};

use super::closure::TermId;
use super::letter::{Letter, MAX_REGISTERS};
use super::monitor::monitor_states;
use super::state::State;
use super::trace::Trace;
use super::window::Window;

/// The number of classes after a coherent beginning of a trace: of the registers below the header's
/// count, those whose values are equal are one class.
pub fn class_number(state: &State) -> usize {
    let classes: BTreeSet<TermId> = state.values.iter().map(|&value| state.closure.class(value)).collect();
    classes.len()
}

/// The numbers of a monitor after each beginning of a trace, the header alone first. Each is that
/// of the longest coherent beginning of the letters taken.
pub fn class_numbers(trace: &Trace) -> Vec<usize> {
    monitor_states(trace).map(|state| class_number(&state)).collect()
}

/// The number after a coherent letter, from the number and the window before it: "without counting
/// them anew".
pub fn kept_number(number: usize, before: &Window, letter: &Letter) -> usize {
    let name = |register: u8| before.names[usize::from(register)];
    match *letter {
        Letter::Copy { target, source } => moved(number, before, target, Some(name(source))),
        Letter::Apply { target, function, first, second } => {
            let held = before.results.get(&(function, name(first), second.map(name)));
            moved(number, before, target, held.copied())
        }
        Letter::Equal { first, second } => number - merges(before, name(first), name(second)),
        Letter::Unequal { .. } => number,
    }
}

/// The number where a register leaves its class for another, or for a new one. A class that it was
/// alone in is gone.
fn moved(number: usize, before: &Window, register: u8, to: Option<u8>) -> usize {
    let from = before.names[usize::from(register)];
    if to == Some(from) {
        return number;
    }
    let alone = before.names.iter().filter(|&&name| name == from).count() == 1;
    number + usize::from(to.is_none()) - usize::from(alone)
}

/// How many classes fewer a test of two leaves: one for itself, and one for each two results that
/// become equal in turn.
fn merges(before: &Window, first: u8, second: u8) -> usize {
    let mut class: Vec<u8> = (0..MAX_REGISTERS).collect();
    let mut merges = 0;
    let mut next = (first != second).then_some((first, second));
    while let Some((a, b)) = next {
        let (kept, gone) = (class[usize::from(a)], class[usize::from(b)]);
        class.iter_mut().filter(|class| **class == gone).for_each(|class| *class = kept);
        merges += 1;
        next = colliding(before, &class);
    }
    merges
}

/// Two results that are held at one function and arguments of one class each, and are in two classes.
fn colliding(before: &Window, class: &[u8]) -> Option<(u8, u8)> {
    let class_of = |name: u8| class[usize::from(name)];
    let mut seen = BTreeMap::new();
    for (&(function, first, second), &result) in &before.results {
        let other = *seen.entry((function, class_of(first), second.map(class_of))).or_insert(result);
        if class_of(other) != class_of(result) {
            return Some((other, result));
        }
    }
    None
}
