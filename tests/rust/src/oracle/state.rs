//! What a trace has computed and tested, by the paper's definitions.

use super::closure::{Closure, Term, TermId};
use super::letter::{Header, Letter};

/// Terms, present values and tests after a beginning of a trace.
#[derive(Clone, Debug)]
pub struct State {
    /// The header of the trace.
    pub header: Header,
    /// All computed terms in the order of their first computation, the initial
    /// constants first: Terms of Definition 3.
    pub terms: Vec<Term>,
    /// The present value of each register: Comp of Definition 3.
    pub values: Vec<TermId>,
    /// The equal tests so far: the paper's α.
    pub equalities: Vec<(TermId, TermId)>,
    /// The unequal tests so far: the paper's β.
    pub inequalities: Vec<(TermId, TermId)>,
    /// The closure of the equal tests over the computed terms.
    pub closure: Closure,
}

impl State {
    /// Before the first letter: each register has a constant of its own.
    pub fn start(header: Header) -> State {
        let terms: Vec<Term> = (0..header.registers).map(Term::Constant).collect();
        let values = (0..terms.len()).collect();
        let closure = Closure::of(&terms, &[]);
        State { header, terms, values, equalities: vec![], inequalities: vec![], closure }
    }

    /// After all these letters.
    pub fn after_all(header: Header, letters: &[Letter]) -> State {
        let mut state = State::start(header);
        for letter in letters {
            state.perform(letter);
        }
        state.closure = Closure::of(&state.terms, &state.equalities);
        state
    }

    /// The term that a register holds.
    pub fn value(&self, register: u8) -> TermId {
        self.values[usize::from(register)]
    }

    /// After one more letter.
    pub fn after(&self, letter: &Letter) -> State {
        let mut next = self.clone();
        next.perform(letter);
        if matches!(letter, Letter::Apply { .. } | Letter::Equal { .. }) {
            next.closure = Closure::of(&next.terms, &next.equalities);
        }
        next
    }

    /// Records what a letter computes or tests, the closure apart.
    fn perform(&mut self, letter: &Letter) {
        match *letter {
            Letter::Copy { target, source } => self.values[usize::from(target)] = self.value(source),
            Letter::Apply { target, function, first, second } => {
                let (first, second) = (self.value(first), second.map(|s| self.value(s)));
                let term = Term::Application { function, first, second };
                self.values[usize::from(target)] = self.place_of(term);
            }
            Letter::Equal { first, second } => {
                self.equalities.push((self.value(first), self.value(second)));
            }
            Letter::Unequal { first, second } => {
                self.inequalities.push((self.value(first), self.value(second)));
            }
        }
    }

    /// The place of a term, which is listed if it is computed for the first time.
    fn place_of(&mut self, term: Term) -> TermId {
        self.terms.iter().position(|known| *known == term).unwrap_or_else(|| {
            self.terms.push(term);
            self.terms.len() - 1
        })
    }

    /// Corollary 2: "no unequal test joins terms equal in the closure".
    pub fn is_feasible(&self) -> bool {
        self.inequalities.iter().all(|&(a, b)| !self.closure.equal(a, b))
    }

    /// Does some register hold a term equal to this one?
    pub fn is_held(&self, term: TermId) -> bool {
        self.values.iter().any(|&value| self.closure.equal(value, term))
    }

    /// The computed applications, each with the list of its arguments.
    pub fn applications(&self) -> impl Iterator<Item = (TermId, Vec<TermId>)> + '_ {
        self.terms.iter().enumerate().filter_map(|(id, term)| match *term {
            Term::Constant(_) => None,
            Term::Application { first, second, .. } => {
                Some((id, std::iter::once(first).chain(second).collect()))
            }
        })
    }

    /// The computed applications that lie above a term: "if one of its arguments
    /// equals the term or a superterm of it".
    pub fn above(&self, term: TermId) -> Vec<(TermId, Vec<TermId>)> {
        let applications: Vec<(TermId, Vec<TermId>)> = self.applications().collect();
        // The term's class and those of the superterms found so far.
        let mut reached = vec![self.closure.class(term)];
        loop {
            let lies_above = |(_, arguments): &&(TermId, Vec<TermId>)| {
                arguments.iter().any(|&a| reached.contains(&self.closure.class(a)))
            };
            let above: Vec<_> = applications.iter().filter(lies_above).cloned().collect();
            let before = reached.len();
            for (result, _) in &above {
                let class = self.closure.class(*result);
                if !reached.contains(&class) {
                    reached.push(class);
                }
            }
            if reached.len() == before {
                return above;
            }
        }
    }

    /// Is each computed application above the term one whose result and
    /// arguments are all held?
    pub fn all_above_held(&self, term: TermId) -> bool {
        self.above(term).iter().all(|(result, arguments)| {
            self.is_held(*result) && arguments.iter().all(|&argument| self.is_held(argument))
        })
    }
}
