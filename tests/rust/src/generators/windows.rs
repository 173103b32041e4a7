//! All windows that coherent traces under a header reach, each with a first trace.

use std::collections::{HashSet, VecDeque};

use crate::oracle::letter::{Header, Letter};
use crate::oracle::monitor::is_coherent;
use crate::oracle::state::State;
use crate::oracle::window::Window;

/// All letters under a header.
pub fn all_letters(header: &Header) -> Vec<Letter> {
    (0..=u16::MAX).step_by(8).filter_map(|word| Letter::unpack(word, header)).collect()
}

/// The first traces that reach new windows, shorter ones first, up to so many.
pub fn first_traces(header: Header, most: usize) -> Vec<Vec<Letter>> {
    let letters = all_letters(&header);
    let start = State::start(header);
    let mut seen = HashSet::from([Window::of(&start)]);
    let mut traces = vec![vec![]];
    let mut queue = VecDeque::from([(vec![], start)]);
    while let Some((trace, state)) = queue.pop_front() {
        for letter in &letters {
            let after = state.after(letter);
            if traces.len() == most {
                return traces;
            }
            if is_coherent(&state, letter, &after) && seen.insert(Window::of(&after)) {
                let longer: Vec<Letter> = [trace.as_slice(), &[*letter]].concat();
                traces.push(longer.clone());
                queue.push_back((longer, after));
            }
        }
    }
    traces
}
