//! The whole-trace engine beside a closure in Rust and SMT solvers.

use std::hint::black_box;
use std::time::Duration;

use fadzgime_tests::fast::closure::fast_show_model;
use fadzgime_tests::oracle::letter::Header;
use fadzgime_tests::oracle::model::Shown;
use fadzgime_tests::oracle::refusal::Refusal;
use fadzgime_tests::oracle::trace::Trace;
use fadzgime_tests::proved::library::{self, MODEL_ANSWER};

use crate::engine_traces::{euclid, leaves, levels, merges, parted, two_chains, typical};
use crate::instructions::Call;
use crate::measure::{Both, Sides, best_times};
use crate::solver::{SOLVERS, script};
use crate::table::{Figures, Table, print_headings};
use crate::traces::coherent;

/// The call's name.
pub const NAME: &str = "model";

/// Bytes that hold every model.
const ROOM: usize = 8192;

/// Letters of the traces.
const LENGTHS: [usize; 5] = [64, 128, 256, 512, 1024];

/// How a trace of so many letters is made.
type Maker = fn(usize) -> Trace;

const KINDS: [(&str, Maker); 8] = [
    ("coherent", |length| coherent(Header::new(8, &[1, 2, 1, 2]), [4, 4, 2, 2], length)),
    ("typical", typical),
    ("two chains", two_chains),
    ("euclid", euclid),
    ("leaves", leaves),
    ("parted", parted),
    ("merges", merges),
    ("levels", levels),
];

/// Both engines over a packed trace.
pub struct Run<'a> {
    trace: &'a [u8],
    out: Vec<u8>,
    answer: [u64; MODEL_ANSWER],
    shown: Result<Shown, Refusal>,
}

impl Run<'_> {
    /// No run over this trace yet.
    pub fn new(trace: &[u8]) -> Run<'_> {
        Run { trace, out: vec![0; ROOM], answer: [u64::MAX; MODEL_ANSWER], shown: Ok(Shown::Infeasible(0)) }
    }

    /// The trace's feasibility in a solver's word.
    fn feasible(&self) -> &'static str {
        if matches!(self.shown, Ok(Shown::Feasible(_))) { "sat" } else { "unsat" }
    }
}

impl Sides for Run<'_> {
    fn proved(&mut self) {
        library::model(self.trace, &mut self.out, &mut self.answer);
    }

    fn rust(&mut self) {
        self.shown = fast_show_model(black_box(self.trace), ROOM);
    }

    fn compare(&self) {
        match self.shown.as_ref().expect("well formed") {
            Shown::Infeasible(letter) => assert_eq!(self.answer, [0, 0, *letter as u64, 0]),
            Shown::Feasible(model) => {
                let bytes = model.pack();
                assert_eq!(self.answer, [0, 0, 0, bytes.len() as u64]);
                assert_eq!(self.out[..bytes.len()], bytes);
            }
        }
    }
}

/// The traces by name.
fn traces() -> Vec<(&'static str, Trace)> {
    let of_kind = |(name, make): (&'static str, Maker)| LENGTHS.map(|length| (name, make(length)));
    KINDS.into_iter().flat_map(of_kind).collect()
}

/// Prints the engine's table.
pub fn table(count: bool) -> Table {
    println!("Whole-trace engine (microseconds and thousand instructions a trace; a solver: microseconds)");
    print!("{:<26}", "trace");
    print_headings();
    SOLVERS.iter().for_each(|solver| print!("{:>10}{:>10}", solver.name, "no start"));
    println!();
    let traces = traces();
    let inputs: Vec<Vec<u8>> = traces.iter().map(|(_, trace)| trace.pack()).collect();
    let mut runs: Vec<Run> = inputs.iter().map(|input| Run::new(input)).collect();
    let times = best_times(&mut runs);
    let mut table = Table::new("Whole-trace engine");
    for (((name, trace), run), times) in traces.iter().zip(&runs).zip(times) {
        line(&mut table, &format!("{name}, {} letters", trace.letters.len()), run, times, count);
        print_solvers(name, trace, run.feasible());
        println!();
    }
    println!();
    table
}

/// Prints the line of one trace but for the solvers.
fn line(table: &mut Table, name: &str, run: &Run, times: Both<Duration>, count: bool) {
    let counted = count.then(|| Call { name: NAME, input: run.trace, table: 0 }.instructions()).flatten();
    let figures = Figures {
        times: times.map(micros),
        instructions: counted.map(|both| both.map(|number| number as f64 / 1e3)),
    };
    print!("{name:<26}");
    table.print(name, &figures);
}

/// Asks the solvers and prints their columns.
fn print_solvers(name: &str, trace: &Trace, feasible: &str) {
    for solver in SOLVERS {
        let Some(solved) = solver.solve(&script(trace)) else {
            print!("{:>10}{:>10}", "-", "-");
            continue;
        };
        assert_eq!(solved.answer, feasible, "{} on {name}", solver.name);
        let alone = solved.whole.saturating_sub(solved.start);
        print!("{:>10.0}{:>10.0}", micros(solved.whole), micros(alone));
    }
}

/// Microseconds.
fn micros(time: Duration) -> f64 {
    time.as_secs_f64() * 1e6
}
