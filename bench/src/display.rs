//! A display: the monitor a letter a call, and what is asked of it after every letter.

use std::hint::black_box;
use std::time::Duration;

use fadzgime_tests::fast::monitor::FastMonitor;
use fadzgime_tests::oracle::letter::{Header, Letter};
use fadzgime_tests::oracle::trace::Trace;
use fadzgime_tests::proved::library::{self, CLASSES_ANSWER, MONITOR_STATE, STEP_ANSWER, UNEQUAL_ANSWER};

use crate::instructions::Call;
use crate::measure::{Both, Sides, best_times};
use crate::monitor::lively_traces;
use crate::table::{Figures, Table, print_headings};

/// Letters of a trace: each is a call or more, which take longer than a letter of a run.
const LETTERS: usize = 5_000;

/// The trace of which everything is asked.
const MIXED: &str = "lively mixed";

/// What is asked after every letter.
#[derive(Clone, Copy, PartialEq, Eq)]
pub enum Asked {
    /// Nothing but the letter's own answer.
    Nothing,
    /// The number of classes.
    Number,
    /// The number of classes, which the Rust side counts anew.
    NumberAnew,
    /// The number of classes and the unequal pairs.
    NumberAndPairs,
}

use Asked::{Nothing, Number, NumberAndPairs, NumberAnew};

impl Asked {
    /// What it is in a row.
    fn words(self) -> &'static str {
        match self {
            Nothing => "nothing",
            Number => "number",
            NumberAnew => "number, Rust anew",
            NumberAndPairs => "number and pairs",
        }
    }

    /// The call's name.
    fn name(self) -> &'static str {
        match self {
            Nothing => "display-nothing",
            Number => "display-number",
            NumberAnew => "display-anew",
            NumberAndPairs => "display",
        }
    }

    /// What the call of this name asks.
    pub fn named(name: &str) -> Option<Asked> {
        [Nothing, Number, NumberAnew, NumberAndPairs].into_iter().find(|asked| asked.name() == name)
    }
}

/// All that was shown, in one word.
#[derive(Clone, Copy, Debug, Default, PartialEq, Eq)]
struct Shown(u64);

impl Shown {
    fn add(&mut self, number: u64) {
        self.0 = self.0.rotate_left(5) ^ number;
    }
}

/// Both displays of a packed trace.
pub struct Run<'a> {
    trace: &'a [u8],
    asked: Asked,
    state: [u8; MONITOR_STATE],
    proved: Shown,
    rust: Shown,
}

impl Run<'_> {
    /// No run over this trace yet.
    pub fn new(trace: &[u8], asked: Asked) -> Run<'_> {
        Run { trace, asked, state: [0; MONITOR_STATE], proved: Shown(0), rust: Shown(1) }
    }

    /// How many letters the trace has behind its header.
    fn letters(&self) -> usize {
        self.trace.len() / 2 - 1
    }

    /// Adds what the library answers about the state.
    fn ask_library(&mut self) {
        if self.asked != Nothing {
            let mut classes = [u64::MAX; CLASSES_ANSWER];
            library::monitor_classes(&self.state, &mut classes);
            self.proved.add(classes[1]);
        }
        if self.asked == NumberAndPairs {
            let mut pairs = [u64::MAX; UNEQUAL_ANSWER];
            library::monitor_unequal(&self.state, &mut pairs);
            self.proved.add(pairs[1]);
        }
    }

    /// Adds what a monitor in Rust says.
    fn ask_rust(&mut self, monitor: &FastMonitor) {
        match self.asked {
            Nothing => {}
            Number | NumberAndPairs => self.rust.add(monitor.classes() as u64),
            NumberAnew => self.rust.add(monitor.counted_classes() as u64),
        }
        if self.asked == NumberAndPairs {
            self.rust.add(monitor.unequal_word());
        }
    }
}

/// The words of a packed trace.
fn words(trace: &[u8]) -> impl Iterator<Item = u16> + '_ {
    trace.as_chunks::<2>().0.iter().map(|word| u16::from_be_bytes(*word))
}

impl Sides for Run<'_> {
    fn proved(&mut self) {
        self.proved = Shown::default();
        let mut answer = [u64::MAX; STEP_ANSWER];
        let mut words = words(self.trace);
        library::monitor_start(words.next().expect("a header"), &mut self.state, &mut answer);
        self.ask_library();
        for word in words {
            library::monitor_step(word, &mut self.state, &mut answer);
            self.proved.add(answer[2]);
            self.ask_library();
        }
    }

    fn rust(&mut self) {
        self.rust = Shown::default();
        let mut words = words(black_box(self.trace));
        let header = words.next().and_then(Header::unpack).expect("a header");
        let mut monitor = FastMonitor::start(header);
        self.ask_rust(&monitor);
        for word in words {
            let letter = Letter::unpack(word, &header).expect("well formed");
            self.rust.add(u64::from(monitor.perform(&letter)));
            self.ask_rust(&monitor);
        }
    }

    fn compare(&self) {
        assert_eq!(self.proved, self.rust);
    }
}

/// The rows: a trace by name, and what is asked of it. Of all it is everything, of one also each part.
fn rows<'a>(traces: &'a [(String, Trace)]) -> Vec<(&'a str, Vec<u8>, Asked)> {
    let of_trace = |(name, trace): &'a (String, Trace)| {
        let parts: &[Asked] = if name == MIXED { &[Nothing, Number, NumberAnew] } else { &[] };
        let asked = parts.iter().copied().chain([NumberAndPairs]);
        asked.map(move |asked| (name.as_str(), trace.pack(), asked))
    };
    traces.iter().flat_map(of_trace).collect()
}

/// Prints the displays' table.
pub fn table(count: bool) -> Table {
    println!("Display, {LETTERS} letters, a letter a call (nanoseconds and instructions a letter)");
    print!("{:<26}{:<20}", "letters", "asked");
    print_headings();
    println!();
    let traces = lively_traces(LETTERS);
    let rows = rows(&traces);
    let mut runs: Vec<Run> = rows.iter().map(|(_, trace, asked)| Run::new(trace, *asked)).collect();
    let times = best_times(&mut runs);
    let mut table = Table::new("Display");
    for (((name, ..), run), times) in rows.iter().zip(&runs).zip(times) {
        line(&mut table, name, run, times, count);
    }
    println!(
        "note: the library keeps its monitor in {MONITOR_STATE} bytes of the caller's, the Rust monitor in a value"
    );
    println!();
    table
}

/// Prints the line of one trace and what is asked of it.
fn line(table: &mut Table, name: &str, run: &Run, times: Both<Duration>, count: bool) {
    let letters = run.letters() as f64;
    let call = Call { name: run.asked.name(), input: run.trace, table: 0 };
    let counted = count.then(|| call.instructions()).flatten();
    let figures = Figures {
        times: times.map(|time| time.as_secs_f64() * 1e9 / letters),
        instructions: counted.map(|both| both.map(|number| number as f64 / letters)),
    };
    print!("{name:<26}{:<20}", run.asked.words());
    table.print(&format!("{name}, {}", run.asked.words()), &figures);
    println!();
}
