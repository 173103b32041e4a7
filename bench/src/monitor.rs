//! The monitor over long traces, and over short ones.

use std::hint::black_box;
use std::time::Duration;

use fadzgime_tests::fast::monitor::fast_monitor;
use fadzgime_tests::oracle::letter::Header;
use fadzgime_tests::oracle::monitor::Judgement;
use fadzgime_tests::oracle::refusal::Refusal;
use fadzgime_tests::oracle::trace::Trace;
use fadzgime_tests::proved::library::{self, MONITOR_ANSWER};

use crate::instructions::Call;
use crate::lively::{liveliness, lively};
use crate::measure::{Both, Sides, best_times};
use crate::table::{Figures, Table, print_headings};
use crate::traces::coherent;

/// The call's name.
pub const NAME: &str = "monitor";

/// Letters of a long trace: a run shall be short, so that some runs are not interrupted.
const LETTERS: usize = 50_000;

/// Letters of a short trace. From 512 letters on the library's run keeps classes in slots; with
/// fewer it works on the window's tables.
const FEW_LETTERS: usize = 400;

/// How a trace is made of a header, weights of copies, applications, equal and unequal
/// tests, and a number of letters.
type Maker = fn(Header, [usize; 4], usize) -> Trace;

/// The makers, with what they put before the name of a kind.
const MAKERS: [(&str, Maker); 2] = [("", coherent), ("lively ", lively)];

/// The name and the weights of a kind.
type Kind = (&'static str, [usize; 4]);

/// The kinds.
const KINDS: [Kind; 5] = [
    ("copy-heavy", [16, 2, 1, 1]),
    ("application-heavy", [2, 16, 1, 1]),
    ("equal-heavy", [4, 4, 12, 1]),
    ("unequal-heavy", [4, 4, 1, 12]),
    ("mixed", [4, 4, 2, 2]),
];

/// The kinds of which there are short traces, all lively.
const SHORT_KINDS: [&str; 3] = ["equal-heavy", "unequal-heavy", "mixed"];

/// Both monitors over a packed trace.
pub struct Run<'a> {
    trace: &'a [u8],
    answer: [u64; MONITOR_ANSWER],
    found: Result<Judgement, Refusal>,
}

impl Run<'_> {
    /// No run over this trace yet.
    pub fn new(trace: &[u8]) -> Run<'_> {
        Run { trace, answer: [u64::MAX; MONITOR_ANSWER], found: Ok(Judgement::default()) }
    }

    /// How many letters the trace has behind its header.
    fn letters(&self) -> usize {
        self.trace.len() / 2 - 1
    }
}

impl Sides for Run<'_> {
    fn proved(&mut self) {
        library::monitor(self.trace, &mut self.answer);
    }

    fn rust(&mut self) {
        self.found = fast_monitor(black_box(self.trace));
    }

    fn compare(&self) {
        let found = self.found.expect("well formed");
        let number = |letter: Option<usize>| letter.unwrap_or(0) as u64;
        assert_eq!(self.answer, [0, 0, number(found.incoherent), number(found.infeasible)]);
    }
}

/// The header of all traces.
fn header() -> Header {
    Header::new(8, &[1, 2, 1, 2])
}

/// The long traces by name.
fn long_traces() -> Vec<(String, Trace)> {
    let of_maker = |(way, make): (&str, Maker)| {
        KINDS.map(|(kind, weights)| (format!("{way}{kind}"), make(header(), weights, LETTERS)))
    };
    MAKERS.into_iter().flat_map(of_maker).collect()
}

/// Lively traces of so many letters by name.
pub fn lively_traces(letters: usize) -> Vec<(String, Trace)> {
    lively_of(KINDS.into_iter(), letters)
}

/// Lively traces of these kinds.
fn lively_of(kinds: impl Iterator<Item = Kind>, letters: usize) -> Vec<(String, Trace)> {
    kinds.map(|(kind, weights)| (format!("lively {kind}"), lively(header(), weights, letters))).collect()
}

/// The short traces by name.
fn short_traces() -> Vec<(String, Trace)> {
    lively_of(KINDS.into_iter().filter(|(kind, _)| SHORT_KINDS.contains(kind)), FEW_LETTERS)
}

/// Prints the table of long traces.
pub fn table(count: bool) -> Table {
    print_table(Table::new("Monitor"), LETTERS, &long_traces(), count)
}

/// Prints the table of short traces.
pub fn short_table(count: bool) -> Table {
    print_table(Table::new("Monitor, short traces"), FEW_LETTERS, &short_traces(), count)
}

/// Prints a table of traces of so many letters, and what these letters do.
fn print_table(mut table: Table, letters: usize, traces: &[(String, Trace)], count: bool) -> Table {
    println!("Monitor, {letters} letters, 8 registers, 4 functions (nanoseconds and instructions a letter)");
    print!("{:<26}", "letters");
    print_headings();
    println!();
    let inputs: Vec<Vec<u8>> = traces.iter().map(|(_, trace)| trace.pack()).collect();
    let mut runs: Vec<Run> = inputs.iter().map(|input| Run::new(input)).collect();
    let times = best_times(&mut runs);
    for (((name, _), run), times) in traces.iter().zip(&runs).zip(times) {
        line(&mut table, name, run, times, count);
    }
    traces.iter().for_each(|(name, trace)| println!("note: {name}: {}", liveliness(trace)));
    println!();
    table
}

/// Prints the line of one trace.
fn line(table: &mut Table, name: &str, run: &Run, times: Both<Duration>, count: bool) {
    let letters = run.letters() as f64;
    let counted = count.then(|| Call { name: NAME, input: run.trace, table: 0 }.instructions()).flatten();
    let figures = Figures {
        times: times.map(|time| time.as_secs_f64() * 1e9 / letters),
        instructions: counted.map(|both| both.map(|number| number as f64 / letters)),
    };
    print!("{name:<26}");
    table.print(name, &figures);
    println!();
}
