//! What a display of a trace shows before its first letter and after each of them: what judging said,
//! the number of classes ("The bench display wants the number of classes after every letter",
//! document 02), and the unequal pairs as a word.

use super::classes::class_number;
use super::monitor::{judge, monitor_states};
use super::refusal::Refusal;
use super::trace::{Trace, read_trace};
use super::unequal_word::unequal_word;

/// What judging said of the last letter taken.
#[derive(Clone, Copy, Debug, PartialEq, Eq)]
pub enum Said {
    /// There is no letter yet.
    Fresh,
    /// It is coherent, and so are all before it.
    Coherent,
    /// It is the first incoherent one, or behind it.
    Incoherent,
}

impl Said {
    /// The word for it.
    pub fn word(self) -> &'static str {
        match self {
            Said::Fresh => "fresh",
            Said::Coherent => "coherent",
            Said::Incoherent => "incoherent",
        }
    }
}

/// What is shown after a beginning of a trace.
#[derive(Clone, Copy, Debug, PartialEq, Eq)]
pub struct Reading {
    /// What judging said of its last letter.
    pub said: Said,
    /// The number of classes.
    pub classes: usize,
    /// The unequal pairs.
    pub unequal: u64,
}

/// What is shown of a packed trace, the header alone first.
pub fn display(bytes: &[u8]) -> Result<Vec<Reading>, Refusal> {
    read_trace(bytes, None).map(|trace| readings(&trace))
}

fn readings(trace: &Trace) -> Vec<Reading> {
    let incoherent = judge(trace).incoherent;
    let said = |taken: usize| match taken {
        0 => Said::Fresh,
        _ if incoherent.is_some_and(|first| first <= taken) => Said::Incoherent,
        _ => Said::Coherent,
    };
    let reading = |(taken, state)| Reading {
        said: said(taken),
        classes: class_number(&state),
        unequal: unequal_word(&state),
    };
    monitor_states(trace).enumerate().map(reading).collect()
}
