//! The window of a beginning of a trace: document 01's six parts, each computed
//! from the whole beginning by what it says, not carried along.

use std::collections::{BTreeMap, BTreeSet};

use super::closure::{Signature, Term, TermId};
use super::state::State;

/// An application to held classes: the function and the names of the classes.
pub type HeldApplication = (u8, u8, Option<u8>);

/// "The window carries everything the next letter needs."
#[derive(Clone, Debug, PartialEq, Eq, Hash)]
pub struct Window {
    /// For each register the name of its class: its lowest-numbered register.
    pub names: Vec<u8>,
    /// The known-unequal pairs of held classes, both ways round; none once
    /// infeasible.
    pub unequal: BTreeSet<(u8, u8)>,
    /// The held results of applications to held classes.
    pub results: BTreeMap<HeldApplication, u8>,
    /// Which applications to held classes were ever computed.
    pub computed: BTreeSet<HeldApplication>,
    /// The held classes that have above them a computed application with an
    /// argument or result that no register holds.
    pub marks: BTreeSet<u8>,
    /// Whether the trace is infeasible.
    pub infeasible: bool,
}

impl Window {
    /// The window after a coherent beginning of a trace.
    pub fn of(state: &State) -> Window {
        let infeasible = !state.is_feasible();
        let names: Vec<u8> = state.values.iter().filter_map(|&value| name(state, value)).collect();
        let marked = |name: &u8| !state.all_above_held(state.value(*name));
        let marks = names.iter().copied().filter(marked).collect();
        let unequal = if infeasible { BTreeSet::new() } else { known_unequal(state) };
        let (results, computed) = held_applications(state);
        Window { names, unequal, results, computed, marks, infeasible }
    }

    /// The number of classes, counted anew: of the registers that name one.
    pub fn classes(&self) -> usize {
        (0..).zip(&self.names).filter(|&(register, &name)| register == name).count()
    }
}

/// The name of the class that holds a term: the lowest-numbered register in it.
fn name(state: &State, term: TermId) -> Option<u8> {
    let holds = |register: &u8| state.closure.equal(state.value(*register), term);
    (0..state.header.registers).find(holds)
}

/// The pairs of held classes that an unequal test has joined.
fn known_unequal(state: &State) -> BTreeSet<(u8, u8)> {
    let mut pairs = BTreeSet::new();
    for &(first, second) in &state.inequalities {
        if let (Some(a), Some(b)) = (name(state, first), name(state, second)) {
            pairs.insert((a, b));
            pairs.insert((b, a));
        }
    }
    pairs
}

/// The computed applications to held classes: those with a held result, and all.
fn held_applications(state: &State) -> (BTreeMap<HeldApplication, u8>, BTreeSet<HeldApplication>) {
    let (mut results, mut computed) = (BTreeMap::new(), BTreeSet::new());
    for (id, term) in state.terms.iter().enumerate() {
        let Some(application) = held_application(state, *term) else { continue };
        computed.insert(application);
        if let Some(result) = name(state, id) {
            results.insert(application, result);
        }
    }
    (results, computed)
}

/// The term as an application to held classes, if it is one.
fn held_application(state: &State, term: Term) -> Option<HeldApplication> {
    let (function, first, second): Signature = state.closure.signature(term)?;
    let first = name(state, first)?;
    match second {
        None => Some((function, first, None)),
        Some(second) => Some((function, first, Some(name(state, second)?))),
    }
}
