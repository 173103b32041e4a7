//! The lines that the programs print. "Lines print a name as it was declared" (document 02).

use std::fmt::Write;

use super::display::{Reading, display};
use super::layout::layout;
use super::letter::Letter;
use super::model::{Model, Shown, show_model};
use super::monitor::{Judgement, monitor};
use super::reader::read_macro;
use super::refusal::Refusal;
use super::syntax::Macro;
use super::verdict::{Answer, verdict};

/// The verdict program has "a table of 65,536 bytes".
pub const PROGRAM_TABLE: usize = 65_536;

/// Bytes that the layout program lends for the print.
pub const PROGRAM_PRINT: usize = 4_096;

/// The longest trace that the display program takes.
pub const PROGRAM_TRACE: usize = 65_536;

/// Lines, or the one line of a refusal.
fn lines(result: Result<String, Refusal>) -> String {
    result.unwrap_or_else(|refusal| format!("{refusal}\n"))
}

/// A letter as its statement without `;`, a test after `assume`.
pub fn letter_text(read: &Macro, letter: &Letter) -> String {
    let name = |register: u8| read.all_registers().nth(usize::from(register)).expect("a register");
    match *letter {
        Letter::Copy { target, source } => format!("{} := {}", name(target), name(source)),
        Letter::Apply { target, function, first, second } => {
            let function = function_name(read, function);
            let second = second.map_or(String::new(), |second| format!(",{}", name(second)));
            format!("{} := {function}({}{second})", name(target), name(first))
        }
        Letter::Equal { first, second } => format!("assume {} = {}", name(first), name(second)),
        Letter::Unequal { first, second } => format!("assume {} != {}", name(first), name(second)),
    }
}

/// The name of a function or a test, as it was declared.
fn function_name(read: &Macro, function: u8) -> &str {
    &read.all_functions().nth(usize::from(function)).expect("a function or a test").0
}

/// The lines of a verdict (document 01, "The verdict program").
pub fn verdict_lines(answer: &Answer) -> String {
    let mut out = format!("verdict {}\npairs {}\n", answer.verdict.word(), answer.verdict.pairs);
    if let Some(event) = &answer.verdict.event {
        out += &format!("letters {}\n", event.letters().len());
        for letter in event.letters() {
            out += &format!("{}\n", letter_text(&answer.read, letter));
        }
    }
    if let Some(model) = &answer.model {
        out += &model_lines(&answer.read, model);
    }
    out
}

/// The lines of a model: `values`, `start` and `row`.
fn model_lines(read: &Macro, model: &Model) -> String {
    let mut out = format!("values {}\n", model.values);
    for (name, start) in read.all_registers().zip(&model.starts) {
        out += &format!("start {name} {start}\n");
    }
    for row in &model.rows {
        let function = function_name(read, row.function);
        out += &format!("row {function} {} {} {}\n", row.first, row.second.unwrap_or(0), row.result);
    }
    out
}

/// What the verdict program prints for a macro.
pub fn print_verdict(text: &[u8]) -> String {
    lines(verdict(text, PROGRAM_TABLE, usize::MAX).map(|answer| verdict_lines(&answer)))
}

/// What the layout program prints for a macro.
pub fn print_layout(text: &[u8]) -> String {
    lines(layout(text, PROGRAM_PRINT))
}

/// What the reading of a macro finds: a refusal, or how much there is of each, hidden registers and tests included.
pub fn print_read(text: &[u8]) -> String {
    lines(read_macro(text).map(|read| {
        let (registers, functions) = (read.all_registers().count(), read.all_functions().count());
        format!("registers {registers} functions {functions} points {}\n", read.points())
    }))
}

/// What the monitor finds in a packed trace.
pub fn print_monitor(bytes: &[u8]) -> String {
    judgement_lines(monitor(bytes))
}

/// The lines of what a monitor found.
pub fn judgement_lines(found: Result<Judgement, Refusal>) -> String {
    let line = |good: &str, bad: &str, letter: Option<usize>| match letter {
        None => format!("{good}\n"),
        Some(number) => format!("{bad} {number}\n"),
    };
    lines(found.map(|judgement| {
        line("coherent", "incoherent", judgement.incoherent)
            + &line("feasible", "infeasible", judgement.infeasible)
    }))
}

/// What the display program prints for a packed trace; nothing for one that is too long.
pub fn print_display(bytes: &[u8]) -> String {
    if bytes.len() > PROGRAM_TRACE {
        return String::new();
    }
    display_lines(display(bytes))
}

/// The lines of what a display shows: how many letters, what judging said of the last, the number of
/// classes, and the unequal pairs in hexadecimal.
pub fn display_lines(shown: Result<Vec<Reading>, Refusal>) -> String {
    let line = |(letters, Reading { said, classes, unequal }): (usize, Reading)| {
        format!("{letters} {} {classes} {unequal:016x}\n", said.word())
    };
    lines(shown.map(|readings| readings.into_iter().enumerate().map(line).collect()))
}

/// What the whole-trace engine finds in a packed trace: the model in hexadecimal.
pub fn print_model(bytes: &[u8]) -> String {
    lines(show_model(bytes, usize::MAX).map(|shown| match shown {
        Shown::Infeasible(number) => format!("infeasible {number}\n"),
        Shown::Feasible(model) => format!("model {}\n", hexadecimal(&model.pack())),
    }))
}

/// Bytes as lower-case hexadecimal digits.
pub fn hexadecimal(bytes: &[u8]) -> String {
    bytes.iter().fold(String::new(), |mut out, byte| {
        let _ = write!(out, "{byte:02x}");
        out
    })
}
