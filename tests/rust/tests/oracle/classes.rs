//! The number of classes after every letter: by the definition, by the window, kept and counted anew,
//! and by the monitor made for speed.

use std::collections::BTreeMap;
use std::fs;
use std::path::Path;

use fadzgime_tests::answers::CLASS_NUMBERS;
use fadzgime_tests::fast::monitor::FastMonitor;
use fadzgime_tests::generators::merges::merging_trace;
use fadzgime_tests::generators::random::{Random, cases};
use fadzgime_tests::generators::traces::{any_trace, unequal_trace};
use fadzgime_tests::generators::windows::{all_letters, first_traces};
use fadzgime_tests::oracle::classes::{class_number, class_numbers, kept_number};
use fadzgime_tests::oracle::letter::{Header, Letter};
use fadzgime_tests::oracle::monitor::is_coherent;
use fadzgime_tests::oracle::state::State;
use fadzgime_tests::oracle::trace::Trace;
use fadzgime_tests::oracle::window::Window;

use crate::{specified_trace, trace};

/// The definitions, their window with a number that is kept beside it, and the monitor made for speed.
#[derive(Clone)]
struct Monitors {
    state: State,
    window: Window,
    number: usize,
    fast: FastMonitor,
    running: bool,
}

impl Monitors {
    fn start(header: Header) -> Monitors {
        let state = State::start(header);
        let window = Window::of(&state);
        let number = usize::from(header.registers);
        Monitors { state, window, number, fast: FastMonitor::start(header), running: true }
    }

    /// Takes a letter; one that is incoherent stops all.
    fn take(&mut self, letter: &Letter) {
        if !self.running {
            return;
        }
        let after = self.state.after(letter);
        self.running = is_coherent(&self.state, letter, &after);
        assert_eq!(self.fast.perform(letter), self.running, "{letter:?}");
        if self.running {
            self.number = kept_number(self.number, &self.window, letter);
            self.window = Window::of(&after);
            self.state = after;
        }
    }

    /// The number, the same by all definitions.
    fn number(&self) -> usize {
        let number = class_number(&self.state);
        assert_eq!(self.window.classes(), number, "{:?}", self.state);
        assert_eq!(self.number, number, "{:?}", self.state);
        assert_eq!(self.fast.classes(), number, "{:?}", self.state);
        assert_eq!(self.fast.counted_classes(), number, "{:?}", self.state);
        assert!((1..=usize::from(self.state.header.registers)).contains(&number), "{:?}", self.state);
        number
    }

    /// The number of registers in the class of this one.
    fn sharing(&self, register: u8) -> usize {
        let name = self.window.names[usize::from(register)];
        self.window.names.iter().filter(|&&other| other == name).count()
    }
}

/// The monitors after each beginning of a trace, whose numbers agree.
fn beginnings(trace: &Trace) -> Vec<Monitors> {
    let mut monitors = vec![Monitors::start(trace.header)];
    for letter in &trace.letters {
        let mut next = monitors[monitors.len() - 1].clone();
        next.take(letter);
        monitors.push(next);
    }
    let numbers: Vec<usize> = monitors.iter().map(Monitors::number).collect();
    assert_eq!(class_numbers(trace), numbers, "{trace:?}");
    monitors
}

/// The numbers after each beginning of a trace.
fn numbers(trace: &Trace) -> Vec<usize> {
    beginnings(trace).iter().map(|monitors| monitors.number).collect()
}

/// Traces whose numbers were settled, in their packed form.
#[test]
fn settled_numbers() {
    for settled in &CLASS_NUMBERS {
        let bytes: Vec<u8> = settled.words.iter().flat_map(|word| word.to_be_bytes()).collect();
        let trace = trace(settled.text);
        assert_eq!(trace.pack(), bytes, "{}", settled.text);
        assert_eq!(numbers(&trace), settled.classes, "{}", settled.text);
    }
}

/// "A header alone has as many classes as registers", whatever functions it has.
#[test]
fn headers() {
    for word in 0..=u16::MAX {
        if let Some(header) = Header::unpack(word) {
            assert_eq!(Monitors::start(header).number(), usize::from(word >> 12));
        }
    }
}

/// Copies that take one class after the other away, down to one, and applications that bring them back.
#[test]
fn down_and_up() {
    for registers in 1..=8 {
        let copies = (1..registers).map(|target| Letter::Copy { target, source: target - 1 });
        let applications = (1..registers).map(|target| {
            let first = if target == 1 { 0 } else { target - 1 };
            Letter::Apply { target, function: 0, first, second: None }
        });
        let header = Header::new(registers, &[1]);
        let trace = Trace { header, letters: copies.chain(applications).collect() };
        let most = usize::from(registers);
        let expected: Vec<usize> = (1..=most).rev().chain(2..=most).collect();
        assert_eq!(numbers(&trace), expected);
    }
}

/// A test of the first two of a chain of results leaves one class, however long the chain is.
#[test]
fn chains() {
    for registers in 2..=8 {
        let result = |target: u8| Letter::Apply { target, function: 0, first: target - 1, second: None };
        let test = Letter::Equal { first: 1, second: 0 };
        let letters = (1..registers).map(result).chain([test]).collect();
        let numbers = numbers(&Trace { header: Header::new(registers, &[1]), letters });
        let (last, before) = numbers.split_last().expect("that of the header alone");
        assert!(before.iter().all(|&number| number == usize::from(registers)));
        assert_eq!(*last, 1);
    }
}

/// An incoherent letter leaves the number, and so does every letter behind it.
#[test]
fn incoherent_letters() {
    let lost = "vars x y z w; funs f/1; w:=y; z:=f(x); z:=f(z);";
    for behind in
        ["assume x=y;", "z:=f(x);", "z:=f(x); z:=x; x:=y;", "assume y=x; y:=z; w:=f(w); assume w!=w;"]
    {
        let numbers = numbers(&trace(&format!("{lost} {behind}")));
        assert_eq!(numbers[0], 4);
        assert!(numbers[1..].iter().all(|&number| number == 3), "{behind}");
    }
}

/// What keeps a trace from being feasible changes no number.
#[test]
fn infeasible_traces() {
    for seed in 0..cases(2_000) {
        let trace = any_trace(&mut Random::new(seed), 30);
        let unequal = Letter::Unequal { first: 0, second: 0 };
        let letters = [&[unequal], trace.letters.as_slice()].concat();
        let infeasible = Trace { header: trace.header, letters };
        assert_eq!(numbers(&infeasible)[1..], numbers(&trace), "{trace:?}");
    }
}

/// Every letter after every window under a header.
#[test]
fn every_window() {
    let headers = [
        Header::new(2, &[1]),
        Header::new(2, &[2]),
        Header::new(3, &[]),
        Header::new(3, &[1]),
        Header::new(4, &[]),
    ];
    for header in headers {
        for letters in first_traces(header, 3_000) {
            let mut monitors = Monitors::start(header);
            letters.iter().for_each(|letter| monitors.take(letter));
            for letter in all_letters(&header) {
                let mut next = monitors.clone();
                next.take(&letter);
                next.number();
            }
        }
    }
}

/// What the letters of random traces do, and how often.
type Met = BTreeMap<String, usize>;

/// What a letter does to the number.
fn kind(before: &Monitors, letter: &Letter, after: &Monitors) -> String {
    if !before.running {
        return "a letter behind an incoherent one".to_string();
    }
    if !after.running {
        return "an incoherent letter".to_string();
    }
    let change = after.number as isize - before.number as isize;
    let place = |target: u8| if before.sharing(target) > 1 { "a shared register" } else { "a lone register" };
    match *letter {
        Letter::Copy { target, source } => {
            let within = before.fast.known_equal(target, source);
            let from = if within { "its own class" } else { "another class" };
            format!("{change:+} by a copy from {from} to {}", place(target))
        }
        Letter::Apply { target, function, first, second } => {
            let name = |register: u8| before.window.names[usize::from(register)];
            let known = before.window.results.contains_key(&(function, name(first), second.map(name)));
            let what = if known { "a known" } else { "a new" };
            format!("{change:+} by {what} application to {}", place(target))
        }
        Letter::Equal { .. } => format!("{change:+} by an equal test"),
        Letter::Unequal { .. } => format!("{change:+} by an unequal test"),
    }
}

/// Compares the numbers of a trace letter by letter, and counts what the letters do.
fn check_trace(trace: &Trace, met: &mut Met) {
    for (letter, two) in trace.letters.iter().zip(beginnings(trace).windows(2)) {
        *met.entry(kind(&two[0], letter, &two[1])).or_default() += 1;
        let goes_on = two[0].number != two[1].number && !two[0].state.is_feasible();
        *met.entry("another number once infeasible".to_string()).or_default() += usize::from(goes_on);
    }
}

/// All that a letter can do to the number.
const KINDS: [&str; 21] = [
    "+0 by a copy from its own class to a lone register",
    "+0 by a copy from its own class to a shared register",
    "-1 by a copy from another class to a lone register",
    "+0 by a copy from another class to a shared register",
    "+0 by a new application to a lone register",
    "+1 by a new application to a shared register",
    "-1 by a known application to a lone register",
    "+0 by a known application to a lone register",
    "+0 by a known application to a shared register",
    "+0 by an equal test",
    "-1 by an equal test",
    "-2 by an equal test",
    "-3 by an equal test",
    "-4 by an equal test",
    "-5 by an equal test",
    "-6 by an equal test",
    "-7 by an equal test",
    "+0 by an unequal test",
    "an incoherent letter",
    "a letter behind an incoherent one",
    "another number once infeasible",
];

#[test]
fn random_traces() {
    let mut met = Met::new();
    for seed in 0..cases(20_000) {
        let random = &mut Random::new(seed);
        check_trace(&any_trace(random, 40), &mut met);
        check_trace(&merging_trace(random, 40), &mut met);
    }
    println!("{met:#?}");
    assert!(met.keys().all(|kind| KINDS.contains(&kind.as_str())), "{met:?}");
    let often = |kind: &&str| met.get(*kind).is_some_and(|&count| count > 100);
    assert!(KINDS.iter().all(often) || cases(10) < 10, "{met:?}");
}

/// Long traces, which lose and merge classes many times.
#[test]
fn long_traces() {
    for seed in 0..cases(60) {
        numbers(&unequal_trace(&mut Random::new(seed), 300));
        numbers(&merging_trace(&mut Random::new(seed), 300));
    }
}

/// The traces and numbers that the table of `docs/SPEC.md` (5.8) shows.
#[test]
fn specified_numbers() {
    let path = Path::new(env!("CARGO_MANIFEST_DIR")).join("../../docs/SPEC.md");
    let page = fs::read_to_string(path).expect("the page");
    let section = page.split("### 5.8 ").nth(1).expect("the section");
    let rows: Vec<_> = section.lines().map_while(within_section).filter_map(specified).collect();
    assert_eq!(rows.len(), 2);
    for (trace, numbers) in rows {
        assert_eq!(class_numbers(&trace), numbers, "{trace:?}");
    }
}

/// A line of a section: what stands before the next heading.
fn within_section(line: &str) -> Option<&str> {
    (!line.starts_with('#')).then_some(line)
}

/// A line of that table: its trace, and its numbers.
fn specified(line: &str) -> Option<(Trace, Vec<usize>)> {
    let (trace, numbers) = specified_trace(line)?;
    let numbers = numbers.split(", ").map(|number| number.parse().ok());
    Some((trace, numbers.collect::<Option<Vec<usize>>>()?))
}
