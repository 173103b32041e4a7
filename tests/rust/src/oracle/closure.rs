//! Computed terms (the paper's Definition 3) and their congruence closure, from
//! scratch.

/// The place of a term in the list of computed terms.
pub type TermId = usize;

/// A term over the constants that registers begin with.
#[derive(Clone, Copy, Debug, PartialEq, Eq)]
pub enum Term {
    /// The constant that a register begins with.
    Constant(u8),
    /// A function applied to one or two computed terms.
    Application {
        /// The function.
        function: u8,
        /// The first argument.
        first: TermId,
        /// The second argument, if there is one.
        second: Option<TermId>,
    },
}

/// An application's function and the classes of its arguments.
pub type Signature = (u8, TermId, Option<TermId>);

/// The least equivalence over computed terms that holds given equations and
/// equates computed applications of one function to equivalent arguments.
#[derive(Clone, Debug, PartialEq, Eq)]
pub struct Closure {
    /// For each term the first computed term that is equal to it.
    class: Vec<TermId>,
}

impl Closure {
    /// The closure of the equations over the terms: the equations are joined,
    /// then applications with one signature, until nothing changes.
    pub fn of(terms: &[Term], equations: &[(TermId, TermId)]) -> Closure {
        let mut closure = Closure { class: (0..terms.len()).collect() };
        for &(a, b) in equations {
            closure.join(a, b);
        }
        while closure.join_congruent(terms) {}
        closure
    }

    /// The first computed term that is equal to this one.
    pub fn class(&self, term: TermId) -> TermId {
        self.class[term]
    }

    /// Are these terms equal in the closure?
    pub fn equal(&self, a: TermId, b: TermId) -> bool {
        self.class[a] == self.class[b]
    }

    /// The signature of an application; none for a constant.
    pub fn signature(&self, term: Term) -> Option<Signature> {
        match term {
            Term::Constant(_) => None,
            Term::Application { function, first, second } => {
                Some((function, self.class(first), second.map(|s| self.class(s))))
            }
        }
    }

    /// Gives both classes the name of the earlier one.
    fn join(&mut self, a: TermId, b: TermId) {
        let (a, b) = (self.class[a], self.class[b]);
        let (kept, renamed) = (a.min(b), a.max(b));
        for class in &mut self.class {
            if *class == renamed {
                *class = kept;
            }
        }
    }

    /// Joins all applications that have one signature now; says whether any
    /// were not yet equal.
    fn join_congruent(&mut self, terms: &[Term]) -> bool {
        let signed = |(id, term): (TermId, &Term)| self.signature(*term).map(|s| (s, id));
        let mut signatures: Vec<(Signature, TermId)> = terms.iter().enumerate().filter_map(signed).collect();
        signatures.sort_unstable();
        let mut changed = false;
        for two in signatures.windows(2) {
            let ((left, a), (right, b)) = (two[0], two[1]);
            if left == right && !self.equal(a, b) {
                self.join(a, b);
                changed = true;
            }
        }
        changed
    }
}
