//! `cargo --offline run --release` in this folder: prints tables of figures. Each line
//! is one input, the proved library beside what else can do it. With `--instructions`
//! callgrind counts the instructions too.

#[cfg(feature = "monitor")]
mod display;
#[cfg(feature = "model")]
mod engine;
#[cfg(feature = "model")]
mod engine_traces;
mod instructions;
#[cfg(feature = "layout")]
mod layout;
#[cfg(feature = "monitor")]
mod lively;
mod measure;
#[cfg(feature = "monitor")]
mod monitor;
#[cfg(feature = "model")]
mod solver;
mod table;
#[cfg(any(feature = "monitor", feature = "model"))]
mod traces;
#[cfg(feature = "verdict")]
mod verdict;

use std::process::ExitCode;

use instructions::{COUNT, Call, collected, input};
use measure::{Side, Sides, warm_up_allocator};
use table::Table;

const USAGE: &str = "usage: bench [--instructions]";

fn main() -> ExitCode {
    let arguments: Vec<String> = std::env::args().skip(1).collect();
    let words: Vec<&str> = arguments.iter().map(String::as_str).collect();
    match words.as_slice() {
        [] => print_tables(false),
        ["--instructions"] => print_tables(true),
        [COUNT, call, side, table] => make_call(call, side, table),
        _ => {
            eprintln!("{USAGE}");
            return ExitCode::from(2);
        }
    }
    ExitCode::SUCCESS
}

/// Prints all tables, the worst row of each, and the worst of all.
fn print_tables(count: bool) {
    warm_up_allocator();
    let tables: Vec<Table> = vec![
        #[cfg(feature = "monitor")]
        monitor::table(count),
        #[cfg(feature = "monitor")]
        monitor::short_table(count),
        #[cfg(feature = "monitor")]
        display::table(count),
        #[cfg(feature = "model")]
        engine::table(count),
        #[cfg(feature = "verdict")]
        verdict::table(count),
        #[cfg(feature = "layout")]
        layout::table(count),
    ];
    if count {
        println!("note: callgrind counts `rep stosb`, which clears a table, as one instruction a byte");
    }
    tables.iter().for_each(Table::print_worst);
    println!("worst proved / Rust: {:.2}", tables.iter().map(Table::worst).fold(0.0, f64::max));
}

/// Makes one call on the standard input, for callgrind to count.
fn make_call(name: &str, side: &str, table: &str) {
    let input = input();
    let call = Call { name, input: &input, table: table.parse().expect("bytes of a table") };
    collected(sides(&call).as_mut(), Side::named(side).expect("the name of a side"));
}

/// Both sides of a call.
fn sides<'a>(call: &Call<'a>) -> Box<dyn Sides + 'a> {
    #[cfg(feature = "monitor")]
    if let Some(asked) = display::Asked::named(call.name) {
        return Box::new(display::Run::new(call.input, asked));
    }
    match call.name {
        #[cfg(feature = "monitor")]
        monitor::NAME => Box::new(monitor::Run::new(call.input)),
        #[cfg(feature = "model")]
        engine::NAME => Box::new(engine::Run::new(call.input)),
        #[cfg(feature = "verdict")]
        verdict::NAME => Box::new(verdict::Run::new(call.input, call.table)),
        #[cfg(feature = "layout")]
        layout::NAME => Box::new(layout::Run::new(call.input)),
        other => panic!("no call is named {other}"),
    }
}
