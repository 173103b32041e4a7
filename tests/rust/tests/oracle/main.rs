//! Tests of the oracle itself: document 01's examples, its settled readings, and
//! one definition against another.

mod capitals;
mod classes;
mod display;
mod equal_sides;
mod examples;
mod fast;
mod grammar;
mod layout;
mod models;
mod named_tests;
mod packing;
mod reader;
mod search;
mod spread;
mod spread_of_tests;
mod stored;
mod unequal_word;
mod windows;
mod written_out;

use fadzgime_tests::oracle::reader::read_macro;
use fadzgime_tests::oracle::trace::{Trace, read_trace};

/// The trace of a macro text of assignments and assumes.
fn trace(text: &str) -> Trace {
    let read = read_macro(text.as_bytes()).expect("the text reads");
    read.straight_line().expect("there is no branch")
}

/// A line of a table of `docs/SPEC.md` whose third cell is a packed trace: that trace, and its fourth and last cell.
fn specified_trace(line: &str) -> Option<(Trace, &str)> {
    let cells: Vec<&str> = line.strip_prefix("| ")?.strip_suffix(" |")?.split(" | ").collect();
    let [_, _, packed, last] = cells[..] else { return None };
    let digits = packed.strip_prefix('`')?.strip_suffix('`')?;
    let units = digits.split(' ').map(|unit| u16::from_str_radix(unit, 16).ok());
    let bytes: Vec<u8> =
        units.collect::<Option<Vec<u16>>>()?.into_iter().flat_map(u16::to_be_bytes).collect();
    Some((read_trace(&bytes, None).ok()?, last))
}
