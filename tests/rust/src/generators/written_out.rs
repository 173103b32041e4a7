//! Tests with names written out by hand, as a writer without them would have to: "such a test applies a function into the
//! hidden register `result` and compares that with the hidden register `truth`" (document 02).

use crate::oracle::syntax::{Condition, Macro, Statement};
use crate::oracle::token::is_same_name;

/// Names for the registers that are hidden no more; no macro of the generators has them.
pub const WRITTEN_REGISTERS: [&str; 2] = ["result_1", "truth_1"];

/// The macro without tests: two more registers and a function for each test, what a test performs as statements. A while
/// performs its application before the loop and again behind its body, and so has a point more.
pub fn written_out(read: &Macro) -> Macro {
    if read.tests.is_empty() {
        return read.clone();
    }
    let is_taken = |name: &&str| read.declared().any(|known| is_same_name(known, name));
    assert!(!WRITTEN_REGISTERS.iter().any(is_taken), "{read:?}");
    let mut registers = read.registers.clone();
    registers.extend(WRITTEN_REGISTERS.map(ToString::to_string));
    let functions = read.all_functions().cloned().collect();
    Macro { registers, functions, tests: vec![], statements: block(&read.statements) }
}

fn block(statements: &[Statement]) -> Vec<Statement> {
    statements.iter().flat_map(statement).collect()
}

/// The statements that a statement becomes.
fn statement(statement: &Statement) -> Vec<Statement> {
    let apply = || statement.applied().map(Statement::Assign);
    let compared = |condition: &Condition| Condition { applied: None, ..*condition };
    let last = match statement {
        Statement::Skip | Statement::Assign(_) => statement.clone(),
        Statement::Assume(condition) => Statement::Assume(compared(condition)),
        Statement::Assert(condition) => Statement::Assert(compared(condition)),
        Statement::If(condition, yes, no) => Statement::If(compared(condition), block(yes), block(no)),
        Statement::While(condition, body) => {
            let mut body = block(body);
            body.extend(apply());
            Statement::While(compared(condition), body)
        }
    };
    apply().into_iter().chain([last]).collect()
}

/// The number of whiles on tests with names.
pub fn named_loops(statements: &[Statement]) -> usize {
    let loops = |statement: &Statement| match statement {
        Statement::If(_, yes, no) => named_loops(yes) + named_loops(no),
        Statement::While(_, body) => named_loops(body) + usize::from(statement.applied().is_some()),
        _ => 0,
    };
    statements.iter().map(loops).sum()
}
