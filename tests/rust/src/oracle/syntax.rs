//! The tree of a macro, and its points (documents 01 and 02).

use super::letter::{Header, Letter, MAX_REGISTERS};
use super::token::{RESULT, TRUTH};
use super::trace::Trace;

/// "The hidden registers follow the declared ones, `result` first."
pub const HIDDEN_REGISTERS: [&str; 2] = [RESULT, TRUTH];

/// So many registers may be declared before a line of tests, and the hidden ones still find room.
pub const MAX_REGISTERS_BESIDE_TESTS: usize = MAX_REGISTERS as usize - HIDDEN_REGISTERS.len();

/// `first = second`, `first != second`, or a test with a name, which is applied and compared: "such a test applies a
/// function into the hidden register `result` and compares that with the hidden register `truth`".
#[derive(Clone, Copy, Debug, PartialEq, Eq, Hash)]
pub struct Condition {
    /// The application of a test with a name, which is performed before the comparison.
    pub applied: Option<Letter>,
    /// Whether the condition asks for equality.
    pub equal: bool,
    /// The left register.
    pub first: u8,
    /// The right register.
    pub second: u8,
}

impl Condition {
    /// The condition `first = second` or `first != second`.
    pub fn compare(equal: bool, first: u8, second: u8) -> Condition {
        Condition { applied: None, equal, first, second }
    }

    /// A test with a name on one or two registers where so many are declared; `holds` is false behind a `!`.
    pub fn named(declared: usize, holds: bool, function: u8, arguments: (u8, Option<u8>)) -> Condition {
        let (result, truth) = (declared as u8, declared as u8 + 1);
        let (first, second) = arguments;
        let applied = Letter::Apply { target: result, function, first, second };
        Condition { applied: Some(applied), equal: holds, first: result, second: truth }
    }

    /// The number of points of a statement that asks the condition, its blocks aside: "Each named test is two points".
    pub fn points(&self) -> usize {
        1 + usize::from(self.applied.is_some())
    }

    /// The letter that assumes the condition.
    pub fn letter(&self) -> Letter {
        let (first, second) = (self.first, self.second);
        if self.equal { Letter::Equal { first, second } } else { Letter::Unequal { first, second } }
    }

    /// The opposite condition, of the same registers in the same order.
    pub fn opposite(&self) -> Condition {
        Condition { equal: !self.equal, ..*self }
    }
}

/// A statement of a macro.
#[derive(Clone, Debug, PartialEq, Eq)]
pub enum Statement {
    /// `skip;`
    Skip,
    /// A copy or an application.
    Assign(Letter),
    /// `assume C;`
    Assume(Condition),
    /// `assert C;`
    Assert(Condition),
    /// `if C { .. } else { .. }`; an absent else is an empty one.
    If(Condition, Vec<Statement>, Vec<Statement>),
    /// `while C { .. }`
    While(Condition, Vec<Statement>),
}

impl Statement {
    /// The condition of an assume, assert, if or while.
    pub fn condition(&self) -> Option<&Condition> {
        match self {
            Statement::Skip | Statement::Assign(_) => None,
            Statement::Assume(condition)
            | Statement::Assert(condition)
            | Statement::If(condition, ..)
            | Statement::While(condition, _) => Some(condition),
        }
    }

    /// The application that the statement performs before it compares, if it asks a test with a name.
    pub fn applied(&self) -> Option<Letter> {
        self.condition()?.applied
    }
}

/// A macro: its declarations and statements.
#[derive(Clone, Debug, PartialEq, Eq)]
pub struct Macro {
    /// The names of the registers, as they were declared.
    pub registers: Vec<String>,
    /// The names of the functions, as they were declared, and whether they take two arguments.
    pub functions: Vec<(String, bool)>,
    /// The names of the tests, likewise; none where there is no line of them.
    pub tests: Vec<(String, bool)>,
    /// The statements.
    pub statements: Vec<Statement>,
}

impl Macro {
    /// The names of all registers of the header: with a line of tests, used or not, "the hidden registers follow the
    /// declared ones".
    pub fn all_registers(&self) -> impl Iterator<Item = &str> {
        let hidden: &[&str] = if self.tests.is_empty() { &[] } else { &HIDDEN_REGISTERS };
        self.registers.iter().map(String::as_str).chain(hidden.iter().copied())
    }

    /// The names and arities of all functions of the header: "tests follow the functions".
    pub fn all_functions(&self) -> impl Iterator<Item = &(String, bool)> {
        self.functions.iter().chain(&self.tests)
    }

    /// All names that the macro declares, in the order of its lists.
    pub fn declared(&self) -> impl Iterator<Item = &String> {
        self.registers.iter().chain(self.all_functions().map(|(name, _)| name))
    }

    /// The header of the macro's traces.
    pub fn header(&self) -> Header {
        let arities: Vec<u8> = self.all_functions().map(|(_, binary)| 1 + u8::from(*binary)).collect();
        Header::new(self.all_registers().count() as u8, &arities)
    }

    /// The number of points: "an assignment, assume, assert, if or while", and the application of a test with a name.
    pub fn points(&self) -> usize {
        count_points(&self.statements)
    }

    /// The one execution of a macro of assignments and assumes, as a trace; none
    /// if there is a branch.
    pub fn straight_line(&self) -> Option<Trace> {
        let mut letters = Vec::new();
        for statement in &self.statements {
            match statement {
                Statement::Skip => {}
                Statement::Assign(letter) => letters.push(*letter),
                Statement::Assume(condition) => {
                    letters.extend(condition.applied);
                    letters.push(condition.letter());
                }
                _ => return None,
            }
        }
        Some(Trace { header: self.header(), letters })
    }
}

/// The number of points in a list of statements.
pub fn count_points(statements: &[Statement]) -> usize {
    let points = |statement: &Statement| match statement {
        Statement::Skip => 0,
        Statement::Assign(_) => 1,
        Statement::Assume(condition) | Statement::Assert(condition) => condition.points(),
        Statement::If(condition, yes, no) => condition.points() + count_points(yes) + count_points(no),
        Statement::While(condition, body) => condition.points() + count_points(body),
    };
    statements.iter().map(points).sum()
}
