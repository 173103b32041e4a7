//! The verdict by plain enumeration of executions, nothing merged: document 01's
//! order of events taken literally, up to a bound on the executions looked at.

use std::collections::HashSet;

use super::execution::{Onward, Rest};
use super::letter::Letter;
use super::monitor::is_coherent;
use super::state::State;
use super::syntax::{Macro, Statement};
use super::verdict::{Event, Verdict, event_at};
use super::window::Window;

/// A partial execution, what it has computed and what it leaves.
struct Partial<'a> {
    rest: Rest<'a>,
    letters: Vec<Letter>,
    state: State,
}

/// What an enumeration found.
#[derive(Clone, Debug, PartialEq, Eq)]
pub enum Enumerated {
    /// The first event, or that there are no more executions, with the pairs.
    Whole(Verdict),
    /// No event among the executions of up to so many letters, and their pairs.
    Bounded {
        /// All executions up to this length were looked at.
        length: usize,
        /// The number of pairs that they leave.
        pairs: usize,
    },
}

/// The pairs left so far. A point is told apart by its place in the tree, and by whether its test is applied already.
type Pairs = HashSet<(*const Statement, bool, Window)>;

/// Looks at all partial executions, shorter first and then by branch, until there
/// is an event, there are no more, or more than `most` were looked at.
pub fn enumerate(read: &Macro, most: usize) -> Enumerated {
    let mut pairs = Pairs::new();
    let start =
        Partial { rest: Rest::all(&read.statements), letters: vec![], state: State::start(read.header()) };
    leave(&mut pairs, &start);
    let mut level = vec![start];
    let mut looked_at = 0;
    for length in 0.. {
        level.retain(|partial| !partial.rest.is_empty());
        if level.is_empty() {
            return Enumerated::Whole(Verdict { event: None, pairs: pairs.len() });
        }
        looked_at += level.len();
        if looked_at > most {
            return Enumerated::Bounded { length, pairs: pairs.len() };
        }
        match next_level(&mut pairs, &level) {
            Ok(next) => level = next,
            Err(event) => return Enumerated::Whole(Verdict { event: Some(event), pairs: pairs.len() }),
        }
    }
    unreachable!("lengths do not end")
}

fn leave(pairs: &mut Pairs, partial: &Partial<'_>) {
    if let Some((statement, applied)) = partial.rest.point() {
        pairs.insert((std::ptr::from_ref(statement), applied, Window::of(&partial.state)));
    }
}

/// The partial executions that are one letter longer, in order, or the first event.
fn next_level<'a>(pairs: &mut Pairs, level: &[Partial<'a>]) -> Result<Vec<Partial<'a>>, Event> {
    let mut next = Vec::new();
    for partial in level {
        for (letter, onward) in partial.rest.branches() {
            let state = partial.state.after(&letter);
            let mut letters = partial.letters.clone();
            letters.push(letter);
            if let Some(event) = event_at(is_coherent, [&partial.state, &state], &letters, &onward) {
                return Err(event);
            }
            if let Onward::To(rest) = onward {
                let longer = Partial { rest, letters, state };
                leave(pairs, &longer);
                next.push(longer);
            }
        }
    }
    Ok(next)
}
