//! A trace as an SMT-LIB script, and the answers of the solvers that are installed.

use std::fmt::Write as _;
use std::io::Write as _;
use std::process::{Command, Stdio};
use std::time::Duration;

use fadzgime_tests::oracle::closure::Term;
use fadzgime_tests::oracle::state::State;
use fadzgime_tests::oracle::trace::Trace;

use crate::measure::once;

/// A script in QF_UF that is satisfiable exactly if the trace is feasible. Each
/// computed term has a name, so that shared terms are written once.
pub fn script(trace: &Trace) -> String {
    let state = State::after_all(trace.header, &trace.letters);
    let mut out = String::from("(set-logic QF_UF)\n(declare-sort V 0)\n");
    for function in 0..trace.header.functions {
        let arguments = ["V", "V V"][trace.header.arity(function) - 1];
        let _ = writeln!(out, "(declare-fun f{function} ({arguments}) V)");
    }
    for (id, term) in state.terms.iter().enumerate() {
        let _ = writeln!(out, "(declare-fun t{id} () V)");
        if let Term::Application { function, first, second } = term {
            let second = second.map_or(String::new(), |second| format!(" t{second}"));
            let _ = writeln!(out, "(assert (= t{id} (f{function} t{first}{second})))");
        }
    }
    for (a, b) in &state.equalities {
        let _ = writeln!(out, "(assert (= t{a} t{b}))");
    }
    for (a, b) in &state.inequalities {
        let _ = writeln!(out, "(assert (not (= t{a} t{b})))");
    }
    out + "(check-sat)\n"
}

/// A solver that reads a script from its standard input.
pub struct Solver {
    /// The name of the program.
    pub name: &'static str,
    /// Its arguments.
    arguments: &'static [&'static str],
}

/// The solvers that are asked, where they are installed.
pub const SOLVERS: [Solver; 2] = [
    Solver { name: "z3", arguments: &["-smt2", "-in"] },
    Solver { name: "cvc5", arguments: &["--lang=smt2", "-"] },
];

/// Runs of a solver over a script, of which the shortest counts.
const RUNS: usize = 5;

/// A script that asks nothing: what a solver takes for it is its start.
const NOTHING: &str = "(set-logic QF_UF)\n(check-sat)\n";

/// What a solver says of a script.
pub struct Solved {
    /// The shortest time, the program's start included.
    pub whole: Duration,
    /// The shortest time of the start alone, measured in turns with the script.
    pub start: Duration,
    /// The answer.
    pub answer: String,
}

impl Solver {
    /// Times and answer of a script; none if the program is not installed.
    pub fn solve(&self, script: &str) -> Option<Solved> {
        let mut best: Option<Solved> = None;
        for _ in 0..RUNS {
            let (start, _) = self.run(NOTHING)?;
            let (whole, answer) = self.run(script)?;
            best = Some(match best {
                None => Solved { whole, start, answer },
                Some(old) => Solved { whole: whole.min(old.whole), start: start.min(old.start), answer },
            });
        }
        best
    }

    fn run(&self, script: &str) -> Option<(Duration, String)> {
        let (time, answer) = once(|| {
            let mut child = Command::new(self.name)
                .args(self.arguments)
                .stdin(Stdio::piped())
                .stdout(Stdio::piped())
                .spawn()
                .ok()?;
            child.stdin.take()?.write_all(script.as_bytes()).ok()?;
            let output = child.wait_with_output().ok()?;
            Some(String::from_utf8_lossy(&output.stdout).trim().to_string())
        });
        answer.map(|answer| (time, answer))
    }
}
