//! The unequal pairs of a window as one word of 64 bits (document 02, "Unequal flags by the
//! word"): from the terms, the closure and the unequal tests of the whole beginning. No window is
//! made on the way.

use super::closure::TermId;
use super::letter::MAX_REGISTERS;
use super::monitor::monitor_states;
use super::state::State;
use super::trace::Trace;

/// The word after a coherent beginning of a trace: "its bit 8a+b is set exactly where classes a
/// and b, by name, are known unequal". A register that names no class has no bits.
pub fn unequal_word(state: &State) -> u64 {
    let names = || (0..state.header.registers).filter(|&register| is_name(state, register));
    let pairs = names().flat_map(|a| names().map(move |b| (a, b)));
    let unequal = pairs.filter(|&(a, b)| known_unequal(state, state.value(a), state.value(b)));
    unequal.map(|(a, b)| 2u64.pow(u32::from(MAX_REGISTERS * a + b))).sum()
}

/// A class is named by its lowest-numbered register: is this register a name?
fn is_name(state: &State, register: u8) -> bool {
    let equal = |lower: u8| state.closure.equal(state.value(lower), state.value(register));
    !(0..register).any(equal)
}

/// Is the trace feasible, and does some unequal test of it join terms equal to these two, in
/// either order?
fn known_unequal(state: &State, a: TermId, b: TermId) -> bool {
    let equal = |left: TermId, right: TermId| state.closure.equal(left, right);
    let joins = |&(left, right): &(TermId, TermId)| {
        equal(left, a) && equal(right, b) || equal(left, b) && equal(right, a)
    };
    state.is_feasible() && state.inequalities.iter().any(joins)
}

/// The words of a monitor after each beginning of a trace, the header alone first. Each is that
/// of the longest coherent beginning of the letters taken.
pub fn unequal_words(trace: &Trace) -> Vec<u64> {
    monitor_states(trace).map(|state| unequal_word(&state)).collect()
}
