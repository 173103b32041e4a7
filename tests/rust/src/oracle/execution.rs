//! Executions of a macro (the paper's Definition 2), letter by letter, twice: over
//! what is left of the statements, and over a table of points. A test with a name is its
//! application and then its comparison (document 02).

use super::letter::Letter;
use super::syntax::{Condition, Statement};

/// What is left of a macro after a partial execution: the statements still to be
/// performed, outermost last. It begins with a point or is empty.
#[derive(Clone, Debug, PartialEq, Eq)]
pub struct Rest<'a> {
    left: Vec<&'a Statement>,
    /// Whether the test with a name that comes next is applied already, and still to be compared.
    applied: bool,
}

/// Where a letter leads.
#[derive(Clone, Debug, PartialEq, Eq)]
pub enum Onward<T> {
    /// The execution goes on, or is whole if nothing is left.
    To(T),
    /// The execution ends at the failure of an assertion.
    Failure,
}

impl<'a> Rest<'a> {
    /// All statements of a macro.
    pub fn all(statements: &'a [Statement]) -> Rest<'a> {
        Rest { left: vec![], applied: false }.before(statements)
    }

    /// Is there no point still to be performed?
    pub fn is_empty(&self) -> bool {
        self.left.is_empty()
    }

    /// The point still to be performed: its statement, and whether the test of that is applied already.
    pub fn point(&self) -> Option<(&'a Statement, bool)> {
        self.left.last().map(|statement| (*statement, self.applied))
    }

    /// These statements, then what is left; skips at the front performed.
    fn before(mut self, statements: &'a [Statement]) -> Rest<'a> {
        self.left.extend(statements.iter().rev());
        while self.left.last().is_some_and(|next| **next == Statement::Skip) {
            self.left.pop();
        }
        self
    }

    /// The letters that may come next, in branch order, and what each leaves.
    pub fn branches(&self) -> Vec<(Letter, Onward<Rest<'a>>)> {
        let Some((statement, applied)) = self.point() else { return vec![] };
        if let Some(letter) = statement.applied().filter(|_| !applied) {
            return vec![(letter, Onward::To(Rest { applied: true, ..self.clone() }))];
        }
        let whole = Rest { applied: false, ..self.clone() };
        let mut behind = whole.clone();
        behind.left.pop();
        let then = |statements: &'a [Statement]| Onward::To(behind.clone().before(statements));
        match statement {
            Statement::Skip => unreachable!("skips are performed at once"),
            Statement::Assign(letter) => vec![(*letter, then(&[]))],
            Statement::Assume(condition) => vec![(condition.letter(), then(&[]))],
            Statement::Assert(condition) => {
                vec![(condition.opposite().letter(), Onward::Failure), (condition.letter(), then(&[]))]
            }
            Statement::If(condition, yes, no) => {
                vec![(condition.letter(), then(yes)), (condition.opposite().letter(), then(no))]
            }
            Statement::While(condition, body) => {
                // "A while returning to the first" of its two points.
                let again = Onward::To(whole.before(body));
                vec![(condition.letter(), again), (condition.opposite().letter(), then(&[]))]
            }
        }
    }
}

/// A point of the table; a target is a point's number, or none for the end.
#[derive(Clone, Copy, Debug, PartialEq, Eq)]
pub enum Point {
    /// An assignment, an assume, or the application of a test with a name.
    Step(Letter, Option<usize>),
    /// An assert.
    Assert(Condition, Option<usize>),
    /// An if or a while: where the condition leads and where its opposite does.
    Branch(Condition, Option<usize>, Option<usize>),
}

/// The points of a macro; their order in the table means nothing.
#[derive(Clone, Debug, PartialEq, Eq)]
pub struct Points {
    table: Vec<Point>,
    /// The first point to be performed.
    pub first: Option<usize>,
}

impl Points {
    /// The table of a macro's points.
    pub fn of(statements: &[Statement]) -> Points {
        let mut points = Points { table: vec![], first: None };
        points.first = points.list(statements, None);
        points
    }

    /// Lists the points of some statements that are followed by a target; gives
    /// the first point to be performed.
    fn list(&mut self, statements: &[Statement], behind: Option<usize>) -> Option<usize> {
        statements.iter().rev().fold(behind, |next, statement| self.enter(statement, next))
    }

    fn enter(&mut self, statement: &Statement, next: Option<usize>) -> Option<usize> {
        let point = match statement {
            Statement::Skip => return next,
            Statement::Assign(letter) => Point::Step(*letter, next),
            Statement::Assume(condition) => Point::Step(condition.letter(), next),
            Statement::Assert(condition) => Point::Assert(*condition, next),
            Statement::If(condition, yes, no) => {
                Point::Branch(*condition, self.list(yes, next), self.list(no, next))
            }
            Statement::While(condition, body) => return Some(self.enter_loop(condition, body, next)),
        };
        let place = self.push(point);
        Some(self.apply_before(statement.applied(), place))
    }

    /// Lists a while; its body leads to the first of its points again.
    fn enter_loop(&mut self, condition: &Condition, body: &[Statement], next: Option<usize>) -> usize {
        let place = self.push(Point::Branch(*condition, None, next));
        let first = self.apply_before(condition.applied, place);
        let begin = self.list(body, Some(first));
        self.table[place] = Point::Branch(*condition, begin, next);
        first
    }

    /// Lists the application that comes before the point at a place, if there is one; gives the first of the two.
    fn apply_before(&mut self, applied: Option<Letter>, place: usize) -> usize {
        applied.map_or(place, |letter| self.push(Point::Step(letter, Some(place))))
    }

    fn push(&mut self, point: Point) -> usize {
        self.table.push(point);
        self.table.len() - 1
    }

    /// The letters of a point in branch order, and where each leads.
    pub fn branches(&self, point: usize) -> Vec<(Letter, Onward<Option<usize>>)> {
        match self.table[point] {
            Point::Step(letter, next) => vec![(letter, Onward::To(next))],
            Point::Assert(condition, next) => {
                vec![(condition.opposite().letter(), Onward::Failure), (condition.letter(), Onward::To(next))]
            }
            Point::Branch(condition, yes, no) => {
                vec![(condition.letter(), Onward::To(yes)), (condition.opposite().letter(), Onward::To(no))]
            }
        }
    }
}
