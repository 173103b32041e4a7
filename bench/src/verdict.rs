//! The verdict on example macros, on macros that fill the table, and on long ones with many unequal
//! pairs.

use std::hint::black_box;
use std::time::Duration;

use fadzgime_tests::examples::example_macros;
use fadzgime_tests::fast::search::fast_search;
use fadzgime_tests::oracle::reader::read_macro;
use fadzgime_tests::oracle::refusal::Refusal;
use fadzgime_tests::oracle::verdict::{Event, Verdict, room_for_pairs};
use fadzgime_tests::proved::library::{self, VERDICT_ANSWER};

use crate::instructions::Call;
use crate::measure::{Both, Sides, best_times};
use crate::table::{Figures, Table, print_headings};

/// The call's name.
pub const NAME: &str = "verdict";

/// Bytes that hold every answer.
const ROOM: usize = 4096;

/// Bytes of the table: N = 341, as in the verdict program.
const TABLE: usize = 65_536;

/// Bytes of the largest table that is of use: N = 1,024.
const LARGEST: usize = 1_024 * 192;

/// A loop with choices.
const CHOICES: &str = "vars a b c d e; funs f/1; while a != b { if c = d { c := e; } else { d := a; } if a != e { a := f(a); } \
     else { e := b; } } assert a = b;";

/// Tests that part five registers into classes in many ways.
const PARTITIONS: &str = "vars a b c d e; if a != b { } if a != c { } if b != c { } if a != d { } if b != d { } \
     if c != d { } if a != e { } if a = b { assert b = a; }";

/// The names of the registers in the macros made here.
const NAMES: [&str; 8] = ["a", "b", "c", "d", "e", "f", "g", "h"];

/// Tests between so many registers, each of which doubles the windows for a while.
fn doubling(registers: usize, tests: usize) -> String {
    let names = &NAMES[..registers];
    let sides = (0..registers).flat_map(|left| (left + 1..registers).map(move |right| (left, right)));
    let tests =
        sides.take(tests).map(|(left, right)| format!("if {} != {} {{ }} ", names[left], names[right]));
    format!("vars {}; {}", names.join(" "), tests.collect::<String>())
}

/// Corners in a line: each turn leads from one corner to the next, which is unequal to all others
/// that the registers keep. So many registers take turns, and these statements stand before.
fn corners_in_a_line(before: &str, registers: usize, turns: usize) -> String {
    let turn = |i: usize| {
        let (new, old) = (NAMES[(i + 1) % registers], NAMES[i % registers]);
        format!("{new} := turn({old}); {}", unequal_to(new, &NAMES))
    };
    let turns: String = (0..turns).map(turn).collect();
    format!("vars {}; funs turn/1; {before}{turns}assert a != b;", NAMES.join(" "))
}

/// Eight corners, all unequal, that are shifted by one until the first is the last.
fn corners_shifted() -> String {
    let turn = |i: usize| {
        let (new, old) = (NAMES[i], NAMES[i - 1]);
        format!("{new} := turn({old}); {}", unequal_to(new, &NAMES[..i]))
    };
    let first: String = (1..8).map(turn).collect();
    let shift: String = NAMES.windows(2).map(|two| format!("{} := {}; ", two[0], two[1])).collect();
    let again = turn(7);
    format!("vars {}; funs turn/1; {first}while a != h {{ {shift}{again}}} assert a = h;", NAMES.join(" "))
}

/// Assumes that a register is unequal to each of the others among these.
fn unequal_to(name: &str, others: &[&str]) -> String {
    let others = others.iter().filter(|other| **other != name);
    others.map(|other| format!("assume {other} != {name}; ")).collect()
}

/// A loop that counts in six binary digits; it can be left only when the last one is set.
const COUNTER: &str = "vars t f a b c d e g; assume t != f; a := f; b := f; c := f; d := f; e := f; g := f; \
     while g = f { if a = f { a := t; } else { a := f; if b = f { b := t; } else { b := f; if c = f { c := t; } \
     else { c := f; if d = f { d := t; } else { d := f; if e = f { e := t; } else { e := f; g := t; } } } } } } \
     assert a != f;";

/// Both searches for a macro's verdict, with the same table.
pub struct Run<'a> {
    text: &'a [u8],
    table: Vec<u8>,
    out: Vec<u8>,
    answer: [u64; VERDICT_ANSWER],
    found: Result<Verdict, Refusal>,
}

impl Run<'_> {
    /// No run over this macro yet.
    pub fn new(text: &[u8], table: usize) -> Run<'_> {
        Run {
            text,
            table: vec![0; table],
            out: vec![0; ROOM],
            answer: [u64::MAX; VERDICT_ANSWER],
            found: Err(Refusal::plain(0)),
        }
    }

    /// The proved side's answer in a word.
    fn word(&self) -> &'static str {
        match self.answer {
            [14, ..] => "full",
            [0, _, 0, ..] => "pass",
            [0, _, 1, ..] => "fail",
            [0, _, 2, ..] => "incoherent",
            _ => "refused",
        }
    }
}

impl Sides for Run<'_> {
    fn proved(&mut self) {
        library::verdict(self.text, &mut self.table, &mut self.out, &mut self.answer);
    }

    /// "After a search, 14 included, each lent table byte is zero": Rust's search has its
    /// pairs elsewhere, and clears the table too.
    fn rust(&mut self) {
        self.found = read_macro(black_box(self.text)).and_then(|read| {
            let found = fast_search(&read, room_for_pairs(self.table.len()));
            self.table.fill(0);
            black_box(&mut self.table);
            found
        });
    }

    fn compare(&self) {
        let numbers = match &self.found {
            Err(refusal) => [u64::from(refusal.number), refusal.place as u64, 0, 0, 0],
            Ok(verdict) => {
                let (word, letters) = match &verdict.event {
                    None => (0, 0),
                    Some(Event::Fail(letters)) => (1, letters.len()),
                    Some(Event::Incoherent(letters)) => (2, letters.len()),
                };
                [0, 0, word, verdict.pairs as u64, letters as u64]
            }
        };
        assert_eq!(self.answer, numbers);
    }
}

/// The macros by name, each with the bytes of its table.
fn macros() -> Vec<(String, String, usize)> {
    let examples = example_macros().into_iter();
    let mut macros: Vec<_> = examples.map(|example| (example.name, example.text, TABLE)).collect();
    let made = [
        ("choices", CHOICES.to_string(), TABLE),
        ("partitions", PARTITIONS.to_string(), TABLE),
        ("eight", doubling(8, 12), TABLE),
        ("eight", doubling(8, 12), LARGEST),
        ("six", doubling(6, 13), LARGEST),
        ("counter", COUNTER.to_string(), LARGEST),
        ("seven", doubling(7, 8), TABLE),
        ("corners in a line", corners_in_a_line("", 8, 28), TABLE),
        ("corners in two lines", corners_in_a_line("if g != h { } ", 6, 31), LARGEST),
        ("corners shifted", corners_shifted(), TABLE),
    ];
    macros.extend(made.map(|(name, text, bytes)| (name.to_string(), text, bytes)));
    macros
}

/// Prints the verdicts' table.
pub fn table(count: bool) -> Table {
    println!("Verdict, the table holding N pairs (microseconds and thousand instructions a macro)");
    print!("{:<26}{:>8}{:>12}{:>8}", "macro", "N", "verdict", "pairs");
    print_headings();
    println!();
    let macros = macros();
    let mut runs: Vec<Run> =
        macros.iter().map(|(_, text, bytes)| Run::new(text.as_bytes(), *bytes)).collect();
    let times = best_times(&mut runs);
    let mut table = Table::new("Verdict");
    for (((name, ..), run), times) in macros.iter().zip(&runs).zip(times) {
        line(&mut table, name, run, times, count);
    }
    println!(
        "note: both sides clear the whole table; on fail the proved one makes a model too, Rust does not"
    );
    println!();
    table
}

/// Prints the line of one macro.
fn line(table: &mut Table, name: &str, run: &Run, times: Both<Duration>, count: bool) {
    let bytes = run.table.len();
    let counted = count.then(|| Call { name: NAME, input: run.text, table: bytes }.instructions()).flatten();
    let figures = Figures {
        times: times.map(|time| time.as_secs_f64() * 1e6),
        instructions: counted.map(|both| both.map(|number| number as f64 / 1e3)),
    };
    let (most, word, pairs) = (room_for_pairs(bytes), run.word(), run.answer[3]);
    print!("{name:<26}{most:>8}{word:>12}{pairs:>8}");
    table.print(&format!("{name}, N = {most}"), &figures);
    println!();
}
