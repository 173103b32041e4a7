//! Coherence and feasibility letter by letter, always from the whole beginning
//! of the trace (document 01, "Terms, models, coherence"; document 02, "A test of what
//! is already equal").

use super::letter::Letter;
use super::refusal::Refusal;
use super::state::State;
use super::trace::{ENGINE_LETTERS, Trace, read_trace};

/// What a run of the monitor finds.
#[derive(Clone, Copy, Debug, Default, PartialEq, Eq)]
pub struct Judgement {
    /// The number, from 1, of the first incoherent letter.
    pub incoherent: Option<usize>,
    /// The number of the first infeasible letter before that one.
    pub infeasible: Option<usize>,
}

/// A rule by which a letter that takes one state to the other is coherent or not.
pub type Rule = fn(&State, &Letter, &State) -> bool;

/// Is this letter, which takes one state to the other, coherent? Document 02: "an equal test whose two sides are equal in
/// the closure before it is always coherent"; all else is judged by document 01's rule.
pub fn is_coherent(before: &State, letter: &Letter, after: &State) -> bool {
    tests_equal_sides(before, letter) || is_strictly_coherent(before, letter, after)
}

/// Is this an equal test whose sides are equal in the closure of this state, which is the one before it?
pub fn tests_equal_sides(before: &State, letter: &Letter) -> bool {
    match *letter {
        Letter::Equal { first, second } => before.closure.equal(before.value(first), before.value(second)),
        _ => false,
    }
}

/// Document 01's rule, which asks of every equal test that it be early. Only a test that sets both rules side by side
/// takes it by itself.
pub fn is_strictly_coherent(before: &State, letter: &Letter, after: &State) -> bool {
    match *letter {
        Letter::Copy { .. } | Letter::Unequal { .. } => true,
        Letter::Apply { target, .. } => is_memoizing(before, target, after),
        Letter::Equal { first, second } => {
            before.all_above_held(before.value(first)) && before.all_above_held(before.value(second))
        }
    }
}

/// "An application whose term is already equal to a computed one needs a
/// register that holds an equal term just before the letter." The closure is
/// that of the tests so far over the computed terms and the new one.
fn is_memoizing(before: &State, target: u8, after: &State) -> bool {
    let term = after.value(target);
    let computed = (0..before.terms.len()).any(|known| after.closure.equal(known, term));
    let held = before.values.iter().any(|&value| after.closure.equal(value, term));
    !computed || held
}

/// Judges a trace up to its first incoherent letter.
pub fn judge(trace: &Trace) -> Judgement {
    judge_by(is_coherent, trace)
}

/// Judges a trace up to its first letter that is incoherent by this rule.
pub fn judge_by(rule: Rule, trace: &Trace) -> Judgement {
    let mut judgement = Judgement::default();
    let mut state = State::start(trace.header);
    for (index, letter) in trace.letters.iter().enumerate() {
        let after = state.after(letter);
        if !rule(&state, letter, &after) {
            judgement.incoherent = Some(index + 1);
            return judgement;
        }
        state = after;
        if judgement.infeasible.is_none() && !state.is_feasible() {
            judgement.infeasible = Some(index + 1);
        }
    }
    judgement
}

/// The number of the letter at which a trace, coherent or not, becomes infeasible:
/// found by halving, since each beginning of a feasible trace is feasible.
pub fn first_infeasible(trace: &Trace) -> Option<usize> {
    let feasible = |length: usize| State::after_all(trace.header, &trace.letters[..length]).is_feasible();
    if feasible(trace.letters.len()) {
        return None;
    }
    let (mut low, mut high) = (0, trace.letters.len());
    while high - low > 1 {
        let middle = low + (high - low) / 2;
        *(if feasible(middle) { &mut low } else { &mut high }) = middle;
    }
    Some(high)
}

/// The states of a monitor after each beginning of a trace, the header alone first. Each is that of
/// the longest coherent beginning of the letters taken.
pub fn monitor_states(trace: &Trace) -> impl Iterator<Item = State> + '_ {
    let coherent = judge(trace).incoherent.map_or(trace.letters.len(), |number| number - 1);
    let state = move |taken: usize| State::after_all(trace.header, &trace.letters[..taken.min(coherent)]);
    (0..=trace.letters.len()).map(state)
}

/// The monitor's run over a packed trace.
pub fn monitor(bytes: &[u8]) -> Result<Judgement, Refusal> {
    read_trace(bytes, None).map(|trace| judge(&trace))
}

/// The reading of a packed trace by the whole-trace engine.
pub fn read_for_engine(bytes: &[u8]) -> Result<Trace, Refusal> {
    read_trace(bytes, Some(ENGINE_LETTERS))
}
